"""What a node's disk says: the entries of a journal file, as docs/FORMATS.md gives them. It is read, never written."""
from dataclasses import dataclass, field

from transcript import ROLES, Bytes, read_command

OPEN_GATE = 1
REPLICAS = 5


class Damaged(Exception):
    """A file that is no journal from an offset on."""


@dataclass
class Told:
    """What the entries of a journal come to: the greatest boot, promise and epoch, and the log's values by slot."""
    boot: int = 0
    promise: int = 0
    epoch: int = 0
    log: list = field(default_factory=list)


def bodies(data):
    """The bodies of a journal file, in order."""
    at = 0
    while len(data) > 1 and at < len(data) and data[at] == OPEN_GATE:
        length = int.from_bytes(data[at + 1:at + 5], "big")
        after = at + 5 + length
        if length == 0 or after >= len(data):
            raise Damaged(f"no journal from offset {at} on")
        yield data[at + 5:after]
        at = after


def add(told, body):
    """One entry more."""
    entry = Bytes(body)
    kind = entry.number(1)
    if kind == 1:
        entry.take(4)
        told.boot = max(told.boot, entry.number(8))
    elif kind in (2, 3, 4):
        ballot = entry.number(8)
        told.promise = max(told.promise, ballot)
        if kind == 4:
            told.log.append([read_command(entry) for _ in range(entry.number(1))])
    elif kind == 5:
        told.epoch = max(told.epoch, entry.number(8))


def read_disk(path):
    """What a journal file says, or None where there is none."""
    told = Told()
    try:
        data = path.read_bytes()
    except FileNotFoundError:
        return None
    try:
        for body in bodies(data):
            add(told, body)
    except (ValueError, KeyError) as why:
        raise Damaged(str(why)) from None
    return told


def disk_name(role, index):
    """The file that a node of this role and number writes."""
    assert role in ROLES
    return f"{role}-{index}-a"


def leader(disks):
    """The replica of the ballot that is the greatest promise, where three replicas have it, by their disks."""
    promises = sorted((told.promise for told in disks if told), reverse=True)
    if len(promises) < 3 or promises[0] == 0 or promises[0] != promises[2]:
        return None
    return promises[0] % REPLICAS
