"""Transcripts and frames of Ananta, as docs/FORMATS.md gives them."""
import ipaddress
from dataclasses import dataclass, field

ROLES = ("replica", "mux", "agent")

# A message's fields by its kind: a name, and a letter for its shape. 8 is a number of 8 bytes, a an address, p a port,
# b one byte, v a value, w a value where the number before it isn't 0.
MESSAGES = {
    1: ("Prepare", "ballot:8"),
    2: ("Promise", "ballot:8 length:8 vote:8 value:w"),
    3: ("Accept", "ballot:8 slot:8 value:v"),
    4: ("Accepted", "ballot:8 slot:8"),
    5: ("Refuse", "ballot:8 promised:8"),
    6: ("Chosen", "slot:8 ballot:8 value:v"),
    7: ("Fetch", "slot:8"),
    8: ("Ask", "boot:8 machine:a seq:8"),
    9: ("Grant", "boot:8 machine:a seq:8 n:8 vip:a start:p"),
    10: ("Denied", "boot:8 machine:a seq:8 reason:b number:8"),
    11: ("Return", "boot:8 n:8"),
    12: ("Returned", "boot:8 n:8"),
    13: ("AgentUp", "boot:8"),
    14: ("AgentKnown", "boot:8"),
    15: ("MuxHello", "boot:8 epoch:8"),
    16: ("Program", "epoch:8 boot:8 n:8 vip:a start:p machine:a"),
    17: ("Programmed", "epoch:8 boot:8 n:8"),
    18: ("Unprogram", "epoch:8 boot:8 n:8 vip:a start:p"),
    19: ("Unprogrammed", "epoch:8 boot:8 n:8"),
    20: ("MuxRefuse", "epoch:8 boot:8 kept:8"),
    21: ("Lead", "ballot:8 length:8"),
    22: ("RedirectAsk", "src:a sport:p dst:a dport:p machine:a"),
    23: ("Redirect", "side:b n:8 src:a sport:p dst:a dport:p opener:a server:a"),
}

# A command's fields, written the same way; 2 is a number of 2 bytes, g the pairs of a Granted.
COMMANDS = {
    1: ("Reserve", "agent:2 boot:8 machine:a seq:8"),
    2: ("Granted", "n:8 pairs:g"),
    3: ("Release", "n:8"),
    4: ("Freed", "n:8"),
    5: ("Up", "agent:2 boot:8"),
}

SIZES = {"8": 8, "a": 4, "p": 2, "b": 1, "2": 2}


class BadTranscript(Exception):
    """A line that no transcript has."""


class Bytes:
    """Reads fields from the front."""

    def __init__(self, data):
        self.data, self.at = data, 0

    def take(self, size):
        if self.at + size > len(self.data):
            raise ValueError("it ends within a field")
        self.at += size
        return self.data[self.at - size:self.at]

    def number(self, size):
        return int.from_bytes(self.take(size), "big")

    def address(self):
        return str(ipaddress.IPv4Address(self.take(4)))


def read_fields(source, shapes):
    """The fields of a message or a command, by name."""
    fields = {}
    for word in shapes.split():
        name, shape = word.split(":")
        if shape == "a":
            fields[name] = source.address()
        elif shape == "v" or shape == "w" and fields["vote"] != 0:
            fields[name] = [read_command(source) for _ in range(source.number(1))]
        elif shape == "g":
            fields[name] = [(source.number(2), source.number(8)) for _ in range(source.number(1))]
        elif shape in SIZES:
            fields[name] = source.number(SIZES[shape])
    return fields


def read_command(source):
    name, shapes = COMMANDS[source.number(1)]
    return name, read_fields(source, shapes)


def command_text(command):
    name, fields = command
    if name == "Reserve":
        return f"Reserve {fields['machine']} seq {fields['seq']}"
    if name == "Up":
        return f"Up agent {fields['agent']} boot {fields['boot']}"
    return f"{name} {fields['n']}"


def value_text(value):
    return ", ".join(command_text(c) for c in value)


def message_text(name, fields):
    """A message by its name and the fields that tell most."""
    if name in ("Accept", "Chosen"):
        return f"{name} {fields['ballot']}, slot {fields['slot']}: {value_text(fields['value'])}"
    if name == "Promise":
        vote = f", vote {fields['vote']}: {value_text(fields['value'])}" if fields["vote"] else ""
        return f"Promise {fields['ballot']}, length {fields['length']}{vote}"
    if name == "Accepted":
        return f"Accepted {fields['ballot']}, slot {fields['slot']}"
    if name == "Grant":
        return f"Grant {fields['n']}: {fields['vip']} from {fields['start']}"
    if name == "Denied":
        reason = {1: "exhausted", 2: "at the limit"}.get(fields["reason"], "?")
        return f"Denied {fields['machine']}: {reason} ({fields['number']})"
    if name in ("Program", "Unprogram"):
        to = f" to {fields['machine']}" if name == "Program" else ""
        return f"{name} {fields['n']}: {fields['vip']} from {fields['start']}{to}"
    if name == "Ask":
        return f"Ask {fields['machine']} seq {fields['seq']}"
    if name in ("RedirectAsk", "Redirect"):
        return f"{name} {fields['src']}:{fields['sport']} to {fields['dst']}:{fields['dport']}"
    return name + "".join(f" {key} {value}" for key, value in fields.items())


PROTOCOLS = {1: "icmp", 4: "ip in ip", 6: "tcp", 17: "udp"}


def packet_text(packet):
    """An IPv4 packet by its protocol and its ends. A packet in a packet shows the inner one."""
    if len(packet) < 20 or packet[0] >> 4 != 4:
        return f"{len(packet)} bytes"
    header = (packet[0] & 15) * 4
    protocol = packet[9]
    ends = [str(ipaddress.IPv4Address(packet[at:at + 4])) for at in (12, 16)]
    inner = packet[header:]
    if protocol == 4:
        return f"to {ends[1]}: {packet_text(inner)}"
    if protocol in (6, 17) and len(inner) >= 4:
        ports = [int.from_bytes(inner[at:at + 2], "big") for at in (0, 2)]
        ends = [f"{end}:{port}" for end, port in zip(ends, ports)]
    flags = ""
    if protocol == 6 and len(inner) >= 14:
        names = ((2, "SYN"), (16, "ACK"), (1, "FIN"), (4, "RST"))
        flags = "".join(f" {name}" for bit, name in names if inner[13] & bit)
    return f"{PROTOCOLS.get(protocol, protocol)}{flags} {ends[0]} to {ends[1]}"


def frame_text(frame):
    """What a datagram holds, in a few words."""
    try:
        if frame[:1] == b"\x01":
            source = Bytes(frame[1:])
            if source.number(1) != 1:
                raise ValueError("another version")
            name, shapes = MESSAGES[source.number(1)]
            return message_text(name, read_fields(source, shapes))
        if frame[:1] == b"\x02":
            return packet_text(frame[1:])
    except (ValueError, KeyError):
        pass
    return f"no frame, {len(frame)} bytes"


@dataclass
class Datagram:
    """A datagram that was sent: `sent` is its event."""
    number: int
    source: str
    target: str
    frame: bytes
    sent: int


@dataclass
class Event:
    """An event and what it wrote. `node` is where it happens, None for a settle. `line` is its first line, from 1."""
    number: int
    line: int
    text: str
    node: str | None = None
    delivers: int | None = None
    injects: tuple | None = None
    word: str | None = None
    acts: list = field(default_factory=list)
    notes: list = field(default_factory=list)
    sends: list = field(default_factory=list)
    last: int = 0


WORDS = ("none", "outside", "down", "up", "other")


class Transcript:
    """The events of a run, in order, and each datagram by its number."""

    def __init__(self, lines):
        self.events, self.datagrams = [], {}
        for number, line in enumerate(lines, start=1):
            try:
                self.add(number, line.rstrip("\n"))
            except (ValueError, IndexError) as why:
                raise BadTranscript(f"line {number} isn't a transcript's: {why}") from None

    def add(self, number, line):
        head, _, rest = line.partition(" ")
        if head == "event":
            self.events.append(self.event(number, rest))
            return
        if not self.events:
            raise ValueError("it belongs to no event")
        event = self.events[-1]
        event.last = number
        if head == "sent":
            self.send(event, rest.split(" "))
        elif head == "act":
            event.acts.append(rest)
        elif head in ("drop", "queued"):
            event.notes.append(line)
        elif line in WORDS:
            event.word = line
        else:
            raise ValueError(f"'{head}' begins no line")

    def event(self, number, text):
        event = Event(len(self.events) + 1, number, text, last=number)
        words = text.split(" ")
        if words[0] == "crash" and len(words) > 3:
            event.node = " ".join(words[1:3])
            words = words[4:-1]
        if words[0] == "deliver":
            event.delivers = int(words[1])
            sent = self.datagrams.get(event.delivers)
            event.node = event.node or (sent.target if sent else None)
        elif words[0] == "inject":
            event.node = event.node or " ".join(words[1:3])
            event.injects = (words[3], bytes.fromhex(words[4]))
        elif words[0] in ("tick", "crash", "restart"):
            event.node = event.node or " ".join(words[1:3])
        elif words[0] != "settle":
            raise ValueError(f"'{words[0]}' is no event")
        return event

    def send(self, event, words):
        number = int(words[0])
        source, rest = self.place(words[1:])
        target, rest = self.place(rest)
        sent = Datagram(number, source, target, bytes.fromhex(rest[0]), event.number)
        self.datagrams[number] = sent
        event.sends.append(sent)

    @staticmethod
    def place(words):
        """A node of two words, or a socket of one, and the words behind it."""
        if words[0] in ROLES:
            return " ".join(words[:2]), words[2:]
        return words[0], words[1:]
