"""The schedules that `run` measures: each a function of its size, in lines or settled deliveries."""
import random

from packets import ACK, SYN, TCP, UDP, configuration, frame, vip

LINES = 100_000
SETTLED = 1_000_000
DAY = 86_400_000


def spread(agents, machines):
    """Addresses of each agent's machines."""
    return [[f"10.1.{i}.{j + 1}" for j in range(machines)] for i in range(agents)]


def joined(text, lines):
    settled = sum(int(line.split(" ")[1]) for line in lines if line.startswith("settle"))
    assert len(lines) <= LINES and settled <= SETTLED, (len(lines), settled)
    return (text + "\n---\n" + "\n".join(lines) + "\n").encode()


def opening(muxes):
    return [f"tick mux {i} 1000" for i in range(muxes)] + ["tick replica 0 1000", "settle 60"]


def injected(agent, machine, *ends, **rest):
    return f"inject agent {agent} {machine}:9000 {frame(machine, *ends, **rest)}"


def deliveries(lines):
    """64 machines lease and are answered; then each line delivers one of the datagrams so far, in a leaping order."""
    agents = spread(1, 64)
    text = configuration(2, agents, [vip("192.0.2.10", 1024, 65535, agents[0])])
    made = opening(2)
    made += [injected(0, machine, 5000, "198.51.100.7", 53) for machine in agents[0]]
    made.append("settle 3000")
    for i in range(64):
        reply = frame("198.51.100.7", 53, "192.0.2.10", 1024 + 8 * i)
        made.append(f"inject mux {i % 2} 10.7.0.1:7000 {reply}")
    made.append("settle 64")
    for i in range(lines - len(made)):
        made.append(f"deliver {1 + i * 389 % (600 + i // 20)}")
    return joined(text, made)


# How many datagrams within the site `settled` makes in its opening, and in each cycle before and behind its ticks.
OPENING, LEASED, GIVEN_BACK = 52, 510, 766


def settled(count):
    """64 machines lease, send, fall idle and give back, over and over; each delivery that a settle may make is made."""
    agents = spread(4, 16)
    machines = [(i, machine) for i, own in enumerate(agents) for machine in own]
    timers = {"mux_silent": DAY, "ask_retry": DAY, "flow_idle": 1000, "range_idle": 1000}
    own = vip("192.0.2.10", 1024, 65535, [machine for _, machine in machines])
    text = configuration(2, agents, [own], timers=timers)
    made = opening(2)[:-1]
    left = count
    now = 1000

    def settle(most):
        nonlocal left
        if min(most, left) > 0:
            made.append(f"settle {min(most, left)}")
        left -= most

    def tick():
        made.extend(f"tick agent {i} {now}" for i in range(4))

    settle(20)
    tick()
    settle(OPENING)
    while left > 0:
        made += [injected(agent, machine, 5000, "198.51.100.7", 53) for agent, machine in machines]
        settle(LEASED)
        for _ in range(2):
            now += 2000
            tick()
        settle(GIVEN_BACK)
    return joined(text, made)


def many_agents(lines):
    """256 agents of 4 machines, 4 VIPs with an endpoint each and 4 muxes: packets both ways, ticks, settles."""
    r = random.Random(256)
    agents = spread(256, 4)
    vips = []
    for i in range(4):
        own = [machine for machines in agents[64 * i:64 * i + 64] for machine in machines]
        served = [("tcp", 80, [(machine, 8080) for machine in own[::4]])]
        vips.append(vip(f"192.0.2.{i + 1}", 1024, 65535, own, served))
    text = configuration(4, agents, vips, timers={"lead_silent": 5000})
    made = opening(4)
    now = 1000
    while len(made) < lines:
        now += 1
        agent, kind, place = r.randrange(256), r.randrange(100), r.randrange(256)
        if kind < 50:
            made.append("settle 19")
        elif kind < 75:
            ends = (5000 + r.randrange(8), f"198.51.100.{1 + r.randrange(4)}", 53)
            rest = {"proto": r.choice([TCP, UDP]), "flags": r.choice([SYN, ACK])}
            made.append(injected(agent, r.choice(agents[agent]), *ends, **rest))
        elif kind < 90:
            port = 80 if kind < 83 else 1024 + r.randrange(8 * 256)
            flags = r.choice([SYN, ACK, ACK, ACK])
            remote = (f"198.51.100.{1 + r.randrange(4)}", 53 if port > 80 else 4000 + place)
            ends = (*remote, f"192.0.2.{1 + r.randrange(4)}", port)
            made.append(f"inject mux {r.randrange(4)} 10.7.0.1:7000 {frame(*ends, proto=TCP, flags=flags)}")
        elif kind < 98:
            made.append(f"tick agent {agent} {now}")
        elif kind < 99:
            made.append(f"tick mux {r.randrange(4)} {now}")
        else:
            made.append(f"tick replica {r.randrange(5)} {now}")
    return joined(text, made)
