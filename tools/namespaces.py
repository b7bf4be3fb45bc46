"""Network namespaces with one TUN device each: a machine, or the outside, as a Linux kernel of its own sees it.

Nothing in them leads anywhere but to `tools/attach`: a loopback device and the TUN device are all that a namespace has.
"""
import ctypes
import fcntl
import os
import shutil
import struct
import subprocess
from pathlib import Path

TUN_FILE = "/dev/net/tun"
DEVICE = "ananta"
SECONDS = 30            # for one call of ip
MTU = 1500              # bytes; machines announce segments of at most 1440
FIRST_HOPS = 64         # machine number i, from 1, starts its packets with 64 + i hops to live

TUNSETIFF = 0x400454CA
IFF_TUN, IFF_NO_PI = 0x0001, 0x1000
CLONE_NEWNET = 0x40000000


def why_not():
    """What is missing on this host, or None."""
    if os.geteuid() != 0:
        return "it needs root"
    if shutil.which("ip") is None:
        return "it needs the command ip (Debian's iproute2)"
    try:
        os.close(os.open(TUN_FILE, os.O_RDWR))
    except OSError as why:
        return f"it needs TUN devices: {TUN_FILE}: {why.strerror}"
    name = f"ananta-tried-{os.getpid()}"
    fault = make(name)
    take_away(name)
    return f"it needs namespaces: {fault}" if fault else None


def path_of(name):
    return Path("/run/netns") / name


def run_ip(*words):
    """The command ip; the answer is a fault or None."""
    ended = subprocess.run(["ip", *words], capture_output=True, text=True, timeout=SECONDS, check=False)
    return None if ended.returncode == 0 else ended.stderr.strip() or f"ip ended with status {ended.returncode}"


def make(name):
    """Makes a namespace; the answer is a fault or None."""
    return run_ip("netns", "add", name)


def take_away(name):
    """Takes a namespace away, where there is one of this name."""
    if path_of(name).exists():
        run_ip("netns", "del", name)


def enter(name):
    """This process goes into the namespace; sockets that it has stay where they were made."""
    libc = ctypes.CDLL(None, use_errno=True)
    with path_of(name).open("rb") as namespace:
        if libc.setns(namespace.fileno(), CLONE_NEWNET) != 0:
            raise OSError(ctypes.get_errno(), f"the namespace {name} can't be entered")


def open_device():
    """A TUN device of the namespace that the process is in: each read and each write is one packet."""
    device = os.open(TUN_FILE, os.O_RDWR | os.O_NONBLOCK)
    fcntl.ioctl(device, TUNSETIFF, struct.pack("16sH22x", DEVICE.encode(), IFF_TUN | IFF_NO_PI))
    return device


def set_up(addresses, hops):
    """Gives the device its addresses, sends everything through it, and lets packets start with so many hops to live."""
    commands = [["link", "set", "lo", "up"]]
    commands += [["address", "add", f"{address}/32", "dev", DEVICE] for address in addresses]
    commands += [["link", "set", DEVICE, "mtu", str(MTU), "up"], ["route", "add", "default", "dev", DEVICE]]
    for words in commands:
        if fault := run_ip(*words):
            raise OSError(f"ip {' '.join(words)}: {fault}")
    if hops:
        with open("/proc/sys/net/ipv4/ip_default_ttl", "w", encoding="ascii") as file:
            file.write(str(hops))
