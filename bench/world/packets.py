"""IPv4 packets with TCP or UDP, as hexadecimal frames, and configurations as JSON."""
import json
import struct

TCP, UDP = 6, 17
SYN, RST, ACK = 2, 4, 16
TIMERS = {"lead_silent": 1000, "mux_silent": 5000, "ask_retry": 500, "flow_idle": 60000, "range_idle": 30000}


def packed(ip):
    return bytes(map(int, ip.split(".")))


def folded(data):
    data += b"\0" * (len(data) % 2)
    total = sum(struct.unpack(f"!{len(data) // 2}H", data))
    while total >> 16:
        total = (total & 0xFFFF) + (total >> 16)
    return total ^ 0xFFFF


def segment(src, dst, proto, sport, dport, flags=0, options=b"", data=b"hi", is_summed=True):
    """A TCP segment or UDP datagram with a right sum, or a UDP datagram without one."""
    if proto == TCP:
        at = 16
        offset = 5 + len(options) // 4 << 4
        body = struct.pack("!HHIIBBHHH", sport, dport, 0, 0, offset, flags, 1000, 0, 0) + options + data
    else:
        at = 6
        body = struct.pack("!HHHH", sport, dport, 8 + len(data), 0) + data
    total = folded(src + dst + struct.pack("!HH", proto, len(body)) + body)
    if proto == UDP:
        total = (total or 0xFFFF) if is_summed else 0
    return body[:at] + struct.pack("!H", total) + body[at + 2:]


def packet(src, sport, dst, dport, proto=UDP, ttl=64, ident=0, **rest):
    """The bytes of a packet; `rest` is the segment's."""
    src, dst = packed(src), packed(dst)
    body = segment(src, dst, proto, sport, dport, **rest)
    head = struct.pack("!BBHHHBBH4s4s", 0x45, 0, 20 + len(body), ident, 0, ttl, proto, 0, src, dst)
    return head[:10] + struct.pack("!H", folded(head)) + head[12:] + body


def frame(*ends, **rest):
    """A datagram with a packet frame, in hexadecimal."""
    return "02" + packet(*ends, **rest).hex()


def configuration(muxes, agents, vips, limit=1024, timers=None):
    """The text of a configuration: how many muxes; each agent's machines; each VIP's keys."""
    return json.dumps({
        "version": 1,
        "router": "10.7.0.1:7000",
        "replicas": [f"10.0.0.{i}:7000" for i in range(1, 6)],
        "muxes": [f"10.9.0.{i + 1}:7000" for i in range(muxes)],
        "agents": [
            {"socket": f"10.8.{i >> 8}.{i & 255}:7000",
             "machines": [{"address": address, "attach": address + ":9000"} for address in machines]}
            for i, machines in enumerate(agents)
        ],
        "vips": vips,
        "limit": limit,
        "timers": dict(TIMERS, **timers or {}),
    })


def vip(address, low, high, snat, endpoints=()):
    """A VIP's object; an endpoint is a protocol, a port and its members."""
    named = [{"proto": proto, "port": port, "machines": [{"address": a, "port": p} for a, p in members]}
             for proto, port, members in endpoints]
    return {"address": address, "low": low, "high": high, "snat": snat, "endpoints": named}
