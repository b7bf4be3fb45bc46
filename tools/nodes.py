"""The nodes of one configuration as processes of this host: started on their disks in one folder, watched, ended."""
import contextlib
import errno
import json
import os
import signal
import socket
import subprocess
import sys
import time
from pathlib import Path

import namespaces
from disks import Damaged, disk_name, leader, read_disk
from transcript import ROLES

ROOT = Path(__file__).resolve().parent.parent
PROGRAM = ROOT / "crates" / "ananta" / "out" / "ananta"
FOLDER = ROOT / "out" / "cluster"       # out/ is in .gitignore
TURNS = 1_000_000_000                   # a hundred days of an idle node
WAIT_START = 20                         # seconds until a node has its socket
WAIT_END = 10                           # seconds until a process that was asked to end has ended
TRIES = 20                              # addresses of which one has its sockets free
STEP = 0.02                             # seconds between two looks
ENDING = (signal.SIGINT, signal.SIGTERM, signal.SIGHUP, signal.SIGALRM)     # signals that end a tool


class Problem(Exception):
    """What the user is told in one line."""


def wait_until(is_so, seconds, step=STEP):
    """Whether it is so within so many seconds."""
    end = time.monotonic() + seconds
    while not (found := is_so()):
        if time.monotonic() > end:
            return False
        time.sleep(step)
    return found


def socket_of(text):
    address, _, port = text.rpartition(":")
    return address, int(port)


def end_by_signals(handler):
    """Has the signals that end a tool call this; those that whoever started it had it ignore stay ignored."""
    for number in ENDING:
        if signal.getsignal(number) is not signal.SIG_IGN:
            signal.signal(number, handler)


@contextlib.contextmanager
def held_signals():
    """What is done within is done whole: a signal that would end this process is taken at its end. What is started
    within knows nothing of that."""
    came = []
    before = {number: signal.signal(number, lambda one, _: came.append(one)) for number in ENDING}
    try:
        yield
    finally:
        for number, handler in before.items():
            signal.signal(number, handler)
        for number in came:
            signal.raise_signal(number)


# ---- the configuration

def default_configuration(host="127.0.0.1"):
    """Five replicas, two muxes and two agents with two machines each at this address, and one VIP with an endpoint."""
    def here(port):
        return f"{host}:{port}"

    def machine(number):
        return {"address": f"10.1.0.{3 + number}", "attach": here(7040 + number)}

    machines = [machine(number) for number in range(1, 5)]
    members = [{"address": machines[place]["address"], "port": 8080} for place in (1, 3)]
    return {
        "version": 1,
        "router": here(7030),
        "replicas": [here(7000 + i) for i in range(5)],
        "muxes": [here(7010 + i) for i in range(2)],
        "agents": [{"socket": here(7020 + i), "machines": machines[2 * i:2 * i + 2]} for i in range(2)],
        "vips": [{
            "address": "192.0.2.10", "low": 1024, "high": 65535,
            "snat": [machine["address"] for machine in machines],
            "endpoints": [{"proto": "tcp", "port": 80, "machines": members}],
        }],
        "limit": 64,
        "timers": {"lead_silent": 1000, "mux_silent": 5000, "ask_retry": 500, "flow_idle": 60000, "range_idle": 30000},
    }


def machines_of(config):
    """Each machine with its agent's number, in the configuration's order."""
    return [(agent, machine) for agent, entry in enumerate(config["agents"]) for machine in entry["machines"]]


def sockets_of(config):
    """Each node's socket by its role and number."""
    lists = (config["replicas"], config["muxes"], [agent["socket"] for agent in config["agents"]])
    return {(role, i): text for role, texts in zip(ROLES, lists) for i, text in enumerate(texts)}


def other_sockets_of(config):
    """The sockets of the router and of the machines."""
    return [config["router"]] + [machine["attach"] for _, machine in machines_of(config)]


def free_configuration():
    """The default configuration at an address 127.A.B.1 by this process's number, where all its sockets are free."""
    for number in range(os.getpid(), os.getpid() + TRIES):
        config = default_configuration(f"127.{1 + number % 250}.{1 + number // 250 % 250}.1")
        if not any(bind_fault(text) for text in [*sockets_of(config).values(), *other_sockets_of(config)]):
            return config
    raise Problem(f"no address of {TRIES} on the loopback has all its sockets free")


# ---- processes

def started_at(pid):
    """When the process of this number began, in the kernel's ticks; None where there is none, or it has ended."""
    try:
        text = Path(f"/proc/{pid}/stat").read_text(encoding="ascii", errors="replace")
    except OSError:
        return None
    words = text[text.rindex(")") + 2:].split()
    return None if words[0] == "Z" else int(words[19])


def is_running(process):
    """Whether a kept process still runs: its number may be another's by now, but that began later."""
    return started_at(process["pid"]) == process["began"]


def send_signal(process, number):
    try:
        if is_running(process):
            os.kill(process["pid"], number)
    except ProcessLookupError:
        pass


def end(processes):
    """Asks each to end, and kills those that don't."""
    def are_ended():
        return not any(is_running(process) for process in processes)

    for number in (signal.SIGTERM, signal.SIGKILL):
        for process in processes:
            send_signal(process, number)
        if wait_until(are_ended, WAIT_END):
            return


def is_bound(text):
    """Whether some process of this host has the UDP socket."""
    address, port = socket_of(text)
    hexed = "".join(f"{int(part):02X}" for part in reversed(address.split(".")))
    wanted = f"{hexed}:{port:04X}"
    lines = Path("/proc/net/udp").read_text(encoding="ascii").splitlines()[1:]
    return any(line.split()[1] == wanted for line in lines)


def bind_fault(text):
    """Why the UDP socket can't be had, or None."""
    with socket.socket(socket.AF_INET, socket.SOCK_DGRAM) as one:
        try:
            one.bind(socket_of(text))
        except OSError as why:
            return "is taken" if why.errno == errno.EADDRINUSE else f"can't be had: {why.strerror}"
    return None


class Cluster:
    """A folder with a configuration, the nodes' disks and outputs, and which processes run over it."""

    def __init__(self, folder=FOLDER, program=PROGRAM):
        self.folder, self.program = Path(folder), Path(program)
        self.config_file = self.folder / "site.json"
        self.kept = self.folder / "processes.json"

    # -- what is kept in the folder

    def config(self):
        try:
            return json.loads(self.config_file.read_text(encoding="utf-8"))
        except FileNotFoundError:
            raise Problem(f"there is no cluster in {self.folder}: tools/cluster up") from None

    def state(self):
        """What was started, and which namespaces were made."""
        try:
            return json.loads(self.kept.read_text(encoding="utf-8"))
        except FileNotFoundError:
            return {"processes": {}, "namespaces": []}

    def keep(self, state):
        after = self.kept.with_suffix(".new")
        after.write_text(json.dumps(state, indent=1), encoding="utf-8")
        after.replace(self.kept)

    def output(self, name):
        return self.folder / (name.replace(" ", "-") + ".log")

    def running(self):
        """The kept processes that run, by name."""
        return {name: process for name, process in self.state()["processes"].items() if is_running(process)}

    def spawn(self, name, words, **more):
        """Starts a process in a session of its own, with its output in a file; it is kept under this name."""
        with held_signals(), self.output(name).open("ab") as output:
            child = subprocess.Popen([str(word) for word in words], cwd=self.folder, stdout=output, stderr=output,
                                     start_new_session=True, **more)
            state = self.state()
            state["processes"][name] = {"pid": child.pid, "began": started_at(child.pid)}
            self.keep(state)
        return child

    # -- nodes

    def check_program(self):
        if not os.access(self.program, os.X_OK):
            raise Problem(f"the program isn't built ({self.program}): ./run check < examples/small.json builds it")

    def check_configuration(self):
        with self.config_file.open("rb") as text:
            ended = subprocess.run([self.program, "check"], stdin=text, capture_output=True, timeout=60, check=False)
        if ended.returncode != 0:
            raise Problem(f"the configuration is refused: {ended.stderr.decode().strip()}")

    def check_sockets(self, config):
        for (role, index), text in sockets_of(config).items():
            if fault := bind_fault(text):
                raise Problem(f"the socket {text} of {role} {index} {fault}")

    def prepare(self, text):
        """Makes the folder, or takes the one that is there with the same configuration and its disks."""
        self.check_program()
        if self.running():
            raise Problem(f"it is up already, in {self.folder}: tools/cluster down ends it")
        self.folder.mkdir(parents=True, exist_ok=True)
        if self.config_file.exists():
            if text is not None and json.loads(text) != self.config():
                raise Problem(f"the disks in {self.folder} were written under another configuration: remove the folder")
        else:
            self.config_file.write_text(text or json.dumps(default_configuration(), indent=1) + "\n", encoding="utf-8")
        self.check_configuration()
        self.check_sockets(self.config())

    def start_node(self, role, index):
        """Starts one node on its disk."""
        name = f"{role} {index}"
        if name in self.running():
            raise Problem(f"{name} runs already")
        self.output(name).unlink(missing_ok=True)
        with self.config_file.open("rb") as text:
            return self.spawn(name, [self.program, "node", role, index, "--turns", TURNS], stdin=text)

    def await_node(self, role, index, child):
        """Waits until a node that was started has its socket, and tells why where it has ended."""
        name, text = f"{role} {index}", sockets_of(self.config())[role, index]
        found = wait_until(lambda: child.poll() is not None or is_bound(text), WAIT_START)
        if child.poll() is not None:
            raise Problem(f"{name} ended with {self.ending(name, child.returncode)}")
        if not found:
            raise Problem(f"{name} has no socket after {WAIT_START} seconds; its output is in {self.output(name)}")

    def ending(self, name, status):
        said = self.output(name).read_text(encoding="utf-8", errors="replace").strip().replace("\n", " / ")
        how = f"status {status}" if status >= 0 else f"signal {-status}"
        return f"{how}: {said or 'it said nothing'} ({self.output(name)})"

    def start_all(self):
        config = self.config()
        children = [(role, index, self.start_node(role, index)) for role, index in sockets_of(config)]
        for role, index, child in children:
            self.await_node(role, index, child)

    def kill_node(self, role, index):
        """Ends a node by SIGKILL."""
        process = self.running().get(f"{role} {index}")
        if process is None:
            raise Problem(f"{role} {index} doesn't run")
        send_signal(process, signal.SIGKILL)
        wait_until(lambda: f"{role} {index}" not in self.running(), WAIT_END)

    # -- namespaces

    def make_namespace(self, name):
        if namespaces.path_of(name).exists():
            raise Problem(f"the namespace {name} is there already: ip netns del {name}, if it's nobody's")
        with held_signals():
            if fault := namespaces.make(name):
                raise Problem(f"the namespace {name} can't be made: {fault}")
            state = self.state()
            state["namespaces"].append(name)
            self.keep(state)

    def take_namespaces(self):
        """Ends what is no node, and takes the namespaces away."""
        nodes = {f"{role} {index}" for role, index in sockets_of(self.config())}
        self.end_those(lambda name: name not in nodes)

    # -- the end

    def down(self):
        """Ends every process that runs over the folder, and takes away its namespaces."""
        self.end_those(lambda name: True)

    def end_those(self, is_one):
        with held_signals():
            state = self.state()
            end([process for name, process in state["processes"].items() if is_one(name)])
            for name in state["namespaces"]:
                namespaces.take_away(name)
            if self.folder.is_dir():
                left = {name: process for name, process in state["processes"].items() if not is_one(name)}
                self.keep({"processes": left, "namespaces": []})

    # -- what the disks say

    def disk(self, role, index):
        """What a node's disk says; None where there is none, or it is damaged."""
        try:
            return read_disk(self.folder / disk_name(role, index))
        except Damaged:
            return None

    def primary(self):
        """The replica that leads, by the disks, where it runs."""
        running = self.running()
        disks = [self.disk("replica", i) if f"replica {i}" in running else None for i in range(5)]
        found = leader(disks)
        return found if found is not None and disks[found] else None


def fail(tool, why):
    """Ends a tool with one line."""
    print(f"{tool}: {why}", file=sys.stderr)
    sys.exit(1)
