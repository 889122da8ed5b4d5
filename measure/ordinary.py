#!/usr/bin/env python3
"""When does a run count changed packets, and when stale copies? The conditions under which it counts none, read off runs.

usage: measure/ordinary.py MODEL [COUNT [FROM]] [--peers PEERS] [--program PROGRAM]

MODEL is the folder of the model in Python of which docs/measures.md speaks, which is not in this repository: its random scenarios are run by
it, COUNT of them (1,000 unless it is given) from the seed FROM on (1), each as it is, without flips, and with flips on one kind of link alone.
Then more seeds, of whose scenarios those alone are run that connect reliably and forge nothing, as they are and with many frames that are lost,
repeated and late, until PEERS runs (1,000) in which all conditions hold had a reliable connection with a peer.

Of each run the conditions of `passed` are read: that no frame of a KISS link whose CRC is of the payload alone was flipped, nor one of a CAN
bus or a hub; that on a KISS link whose CRC covers the header each flip turned a plain byte into a plain byte; that no interface on a CAN bus or
a hub made more than 1,024 transmissions; that no two interfaces of a hub sent packets of one source. And those of `stale`, as crates/csp_peers/specs/Clear.antt has them: that no `raw` line has the flag RDP; that no step
asks for a reliable connection to address 31; that of the packets of reliable connections that a router sent, by an `Out` or to its own inbox,
those of two connections of its node differ in peer address, peer port or own port; that on each connection at most 32,766 packets were sent.
Scenarios that are made for it break single ones alone.

It fails where the conditions of `passed` hold and packets are counted as changed; where all hold and copies are counted as stale; and where one
can be dropped: where no run that breaks it alone counts any. It fails as well where a data packet is handed to a reliable connection, before
anything is counted, that lies further past the last one delivered than the window of its peer, and where none lies just so far.

Where all conditions hold, what is taken from a connection must be a beginning of what its peer sent.

With a PROGRAM, as ./cspsim, the scenarios that are made are run by it too, and must count as many; and the mission and `gen N`, for each N
from 1 to 500, must meet all conditions in the model, and count nothing by the program.
"""
import argparse
import os
import random
import subprocess
import sys

FEND, FESC = 0xC0, 0xDB
IDS = 1024
LEVEL = 19
BROADCAST = 31
MOST_SENT = 32766
BUSES = ("can", "hub")
PASSED = ("payload CRC", "bus", "plain", "numbers", "sources")
STALE = ("raw", "broadcast", "twice", "long")
HERE = os.path.dirname(os.path.abspath(__file__))


def is_plain(byte):
    return byte not in (FEND, FESC)


def flips_plain(data, bit):
    """The bit is one of a plain byte of a frame, which it turns into a plain byte."""
    at = bit >> 3
    new = data[at] ^ 0x80 >> (bit & 7)
    return is_plain(data[at]) and is_plain(new) and (at == 0 or data[at - 1] != FESC)


class Told:
    """What a run breaks, and what it counts."""

    def __init__(self, broken, passed, stale, peers, prefix):
        self.broken, self.passed, self.stale, self.peers, self.prefix = broken, passed, stale, peers, prefix

    def breaks(self, conditions):
        return [c for c in conditions if c in self.broken]


class Window:
    """How far past the last packet delivered data was handed to connections that are each other's peer, before anything was counted."""

    def __init__(self):
        self.handed, self.past, self.at = 0, 0, {}

    def note(self, distance, window):
        self.handed += 1
        self.past += distance > window
        if distance == window:
            self.at[window] = self.at.get(window, 0) + 1


class Model:
    """The model, and what a run of it breaks."""

    def __init__(self, folder):
        sys.dont_write_bytecode = True
        sys.path.insert(0, folder)
        import gen
        from cspo import gen as mission, header, hub, link, rdp, scene, stack
        from cspo.level import Level
        from cspo.world import World
        self.gen, self.mission, self.scene, self.World = gen, mission, scene, World
        self.flag, self.rdp = header.RDP, rdp
        self.level = Level(LEVEL)
        self.copies, link.copies, hub.copies = link.copies, self.noting, self.noting
        self.use, self.handed, self.push, self.discard = stack.Router._use, stack.Router._handed, stack.Router._push_out, stack.Router._discard
        stack.Router._use = lambda router, conn: self.using(router, conn)
        stack.Router._push_out = lambda router: self.pushing(router)
        stack.Router._discard = lambda router, why, buffer: self.discarding(router, why, buffer)
        stack.Router._handed = lambda *handed: self.handing(*handed)
        self.window = Window()

    def noting(self, plan, direction, number, frame, now):
        """The copies of a frame; its flip is noted, where a plan has one for it."""
        bit = plan.get((direction, number), {}).get("flip")
        if bit is not None and bit < 8 * len(frame.bytes):
            self.flipped.append((id(plan), frame.bytes, bit))
        return self.copies(plan, direction, number, frame, now)

    def using(self, router, conn):
        """A slot comes into use; the machine of a reliable connection is noted, whether or not it will open."""
        if conn.kind == "rdp":
            self.machines[conn.rdp.node, conn.rdp.nth] = conn.rdp
        return self.use(router, conn)

    def pushing(self, router):
        """A packet leaves the router; one of its own reliable connections that finds room in an `Out` or the inbox is noted."""
        (queue, _, packet), self.found_room = router.out, True
        weight = self.push(router)
        tag, header = packet.trace[2], packet.header
        if self.found_room and (queue == "inbox" or queue[0] == "out") and tag and tag[0] == router.node:
            ports = header >> 20 & 31, header >> 14 & 63, header >> 8 & 63
            self.flows.setdefault((router.node, ports), set()).add(tag[1])
        return weight

    def discarding(self, router, why, packet):
        self.found_room = False
        return self.discard(router, why, packet)

    def handing(self, router, conn, head, packet, now):
        """A packet is handed to a reliable connection; of data from its peer it is noted how far past the last one delivered it is."""
        machine, tag, (data, flags, _, _) = conn.rdp, packet.trace[2], head
        other = self.machines.get(machine.peer)
        distance = None
        if tag and other and other.peer == (machine.node, machine.nth) and data:
            if flags & self.rdp.ACK and not flags & (self.rdp.RST | self.rdp.SYN | self.rdp.EAK):
                distance = tag[2] - machine.cur
        self.handed(router, conn, head, packet, now)
        if distance is not None and not self.world.passed and not self.stale():
            self.window.note(distance, other.options[0])

    def stale(self):
        return sum(r.stale for r, n in zip(self.world.routers, self.world.scene.nodes) if n.addr is not None)

    def scenario(self, seed):
        return self.gen.make(seed, LEVEL).decode("latin-1")

    def run(self, text):
        """What the run of a text breaks and counts; None where the text is refused."""
        self.flipped, self.flows, self.machines = [], {}, {}
        try:
            self.world = self.World(self.scene.parse(text.encode("latin-1"), self.level), self.level)
        except self.scene.SceneError:
            return None
        self.world.run_sim()
        sent, taken = self.connections()
        prefix = all(took == sent.get(peer, [])[:len(took)] for peer, took in taken)
        return Told(self.passed_conditions() | self.stale_conditions(sent), self.world.passed, self.stale(), bool(taken), prefix)

    def connections(self):
        """What was sent on each reliable connection that opened, by its flow, and the peer of each with what was taken."""
        sent, taken = {}, []
        for node, router in enumerate(self.world.routers):
            for (app, slot, ordinal), (nth, peer) in router.opened.items() if self.world.scene.nodes[node].addr is not None else ():
                if nth is not None:
                    sent[node, nth] = router.sent.get((app, slot, ordinal), [])
                if peer is not None:
                    taken.append((peer, self.world.apps[node][app].took.get((slot, ordinal), [])))
        return sent, taken

    def passed_conditions(self):
        """Those of `passed` that the run broke."""
        broken = set()
        kinds = {id(l.plan): (l.kind, l.cover) for l in self.world.scene.links}
        for plan, data, bit in self.flipped:
            kind, cover = kinds[plan]
            if kind in BUSES:
                broken.add("bus")
            elif not cover:
                broken.add("payload CRC")
            elif not flips_plain(data, bit):
                broken.add("plain")
        for ifaces in self.world.ifaces:
            if any(f.kind in BUSES and f.serial > IDS for f in ifaces):
                broken.add("numbers")
        for hub in self.world.scene.links:
            if hub.kind == "hub":
                sources = [{header >> 25 & 31 for header, _ in self.world.sent[end]} for end in hub.ends]
                if sum(map(len, sources)) > len(set().union(*sources)):
                    broken.add("sources")
        return broken

    def stale_conditions(self, sent):
        """Those of `stale` besides that it broke."""
        broken = set()
        steps = [s for n in self.world.scene.nodes for a in n.apps for s in a.steps]
        if any(s[0] == "raw" and s[1] & self.flag for s in steps):
            broken.add("raw")
        if any(s[0] == "connect" and s[2] == BROADCAST and s[5] & self.flag for s in steps):
            broken.add("broadcast")
        if any(len(flows) > 1 for flows in self.flows.values()):
            broken.add("twice")
        if any(len(packets) > MOST_SENT for packets in sent.values()):
            broken.add("long")
        return broken


def kind_of(words):
    if words[2] == "can":
        return "can"
    return "header" if "header" in words else "kiss"


def variants(text, seed):
    """The text as it is, without flips, and with flips on the links of one kind alone."""
    r = random.Random(seed)
    lines = [l.split() for l in text.split("\n")]
    yield text
    bare = [l for l, w in zip(text.split("\n"), lines) if not (w[:1] == ["fault"] and w[-2:-1] == ["flip"])]
    yield "\n".join(bare)
    links = [(w[1], kind_of(w)) for w in lines if w[:1] == ["link"]]
    for kind in ("kiss", "header", "can"):
        names = [n for n, k in links if k == kind]
        if not names:
            continue
        faults = {(r.choice(names), r.choice(("ab", "ba")), r.randint(1, 30)) for _ in range(12)}
        added = ["fault %s %s %d flip %d" % (*f, r.choice((r.randint(16, 48), r.randint(16, 400)))) for f in sorted(faults)]
        yield with_faults(bare, added)


def with_faults(lines, added):
    """Lines with these faults as well: they stand after the links, before the first schedule or application."""
    places = [i for i, l in enumerate(lines) if l.split()[:1] == ["link"]]
    return "\n".join(lines[: places[-1] + 1] + added + lines[places[-1] + 1:])


def late(text, seed):
    """The text with other faults, and many: frames are lost, repeated and come late."""
    r = random.Random(seed)
    lines = [l for l in text.split("\n") if l.split()[:1] != ["fault"]]
    added = []
    for name in [l.split()[1] for l in lines if l.split()[:1] == ["link"]]:
        for direction in ("ab", "ba"):
            for frame in r.sample(range(1, 61), 15):
                kinds = r.choice((("lose",), ("repeat 1",), ("delay 3",), ("delay 30",), ("delay 300",), ("repeat 2", "delay 90")))
                added += ["fault %s %s %d %s" % (name, direction, frame, kind) for kind in kinds]
    return with_faults(lines, added) if added else text


def crc_state(data):
    state = 0xFFFFFFFF
    for byte in data:
        state ^= byte
        for _ in range(8):
            state = state >> 1 ^ 0x82F63B78 if state & 1 else state >> 1
    return state


def bytes_between(before, after):
    """Four bytes that bring a CRC back to its beginning, with these bytes before and after them: the CRC is affine in their bits."""
    def whole(n):
        return crc_state(before + n.to_bytes(4, "little") + after) ^ 0xFFFFFFFF
    zero = whole(0)
    rows = []
    for bit in range(32):
        value, own = whole(1 << bit) ^ zero, 1 << bit
        for pivot, v, o in rows:
            if value >> pivot & 1:
                value, own = value ^ v, own ^ o
        if value:
            rows.append((value.bit_length() - 1, value, own))
    left, answer = zero, 0
    for pivot, v, o in sorted(rows, reverse=True):
        if left >> pivot & 1:
            left, answer = left ^ v, answer ^ o
    return answer.to_bytes(4, "little") if left == 0 else None


def smuggled(packet):
    """A payload in which this packet stands, and which of its bits to flip: where a plain byte becomes a FEND, what follows is a frame with
    the right CRC."""
    header = bytes.fromhex("8222b000")
    for skipped in range(1, 200):
        after = bytes([FEND ^ 1, skipped])
        free = bytes_between(header, after)
        if free and is_plain(skipped) and all(is_plain(b) for b in free):
            return (free + after + packet).hex(), 8 * (2 + len(header) + len(free)) + 7
    raise AssertionError("no such bytes")


def changed_inside():
    payload, bit = smuggled(bytes.fromhex("8222b100") + b"changed")
    return ("until 40\nnode n1 1 buffers 8\nnode n2 2 buffers 8\nlink l kiss n1 n2 header\nroute n1 0/0 l\n"
            "fault l ab 1 flip %d\napp n1 a\nraw 8222b000 %s\nwait 30\n" % (bit, payload))


def worn_out():
    """1,025 packets over a bus: of the first the second frame is lost, of the last the first one, and both have one number."""
    waits = "burst 0 16 2\nwait 9\n" * 63 + "burst 0 15 2\nwait 9\n"
    return ("until 2000\nnode n1 1 buffers 32\nnode n2 2 buffers 32\nlink l can n1 n2\nroute n1 0/0 l\n"
            "fault l ab 2 lose\nfault l ab 1026 lose\napp n1 a\nconnect 0 2 10\nsend 0 010203\nwait 9\n" + waits + "send 0 040506\nwait 30\n")


def one_source():
    """Two nodes of a hub send a packet to the same node, both in the name of the first, and their frames come mixed."""
    return ("until 30\nschedule shuffle 4\nnode n1 1 buffers 8\nnode n2 2 buffers 8\nnode n3 3 buffers 8\nhub bus n1 n2 n3\nroute n1 0/0 bus\n"
            "route n2 0/0 bus\napp n1 a\nraw 8232b000 0101010101\nwait 10\napp n2 b\nraw 8232b000 0202020202\nwait 10\n")


def forged():
    """A packet that nobody's machine made, for a connection that has a peer."""
    return "until 9\nnode n1 1 buffers 4\napp n1 a\nbind 10 rdp\nconnect 0 1 10 rdp\nraw 8212b002 0400000000\nwait 1\n"


def two_nodes(link, *lines):
    """Two nodes, a link of this kind, and what else: its faults and applications."""
    kind, *header = link.split()
    return "\n".join(("until 90", "node n1 1 buffers 8", "node n2 2 buffers 8", " ".join(["link l", kind, "n1 n2"] + header),
                      "route n1 0/0 l", "route n2 0/0 l") + lines) + "\n"


def to_all():
    """A connection to every node's address, from the port of a good one."""
    return two_nodes("kiss", "app n1 a", "connect 0 2 10 rdp", "connect 1 31 10 rdp from 48", "app n2 b", "bind 10 rdp")


def again():
    """A port used again, while the other end has not closed."""
    return "until 9\nnode n1 1 buffers 4\napp n1 a\nbind 10 rdp\nconnect 0 1 10 rdp\nclose 0\nconnect 0 1 10 rdp from 48\n"


def late_opening():
    """One connection; the packet that asks for it comes a second time, late, when the other end has closed: then it opens another."""
    return two_nodes("kiss", "rdp n1 4 1000 10 1 250 2", "fault l ab 1 delay 50", "app n1 a", "connect 0 2 10 rdp", "wait 90", "app n2 b",
                     "bind 10 rdp", "wait 30", "close 0")


def late_data():
    """Both ends close, and connect again from the same port; then the last packet of the first connection comes, and is taken for the first
    of the second."""
    return ("until 4000\nnode n1 1 buffers 16\nnode n2 2 buffers 16\nrdp n1 8 20000 10 1 10 2\nlink l kiss n1 n2\nroute n1 0/0 l\n"
            "route n2 0/0 l\nfault l ab 1003 delay 300\napp n1 a\nconnect 0 2 10 rdp\nburst 0 1001 1\nwait 20\nclose 0\n"
            "connect 0 2 10 rdp from 48\nwait 400\nsend 0 ff\nwait 30\napp n2 b\nbind 10 rdp\nrecv 0 1001\nclose 0\nrecv 0 1\n")


def long_burst(packets):
    """A connection that admits so many packets; the first answer to it comes when all are acknowledged."""
    return ("until 60000\nnode n1 1 buffers 64\nnode n2 2 buffers 64\nrdp n1 20 10000 1000 1 250 5\nlink l kiss n1 n2\nroute n1 0/0 l\n"
            "route n2 0/0 l\nfault l ba 1 delay 26000\napp n1 a\nconnect 0 2 10 rdp\nburst 0 %d 1\nwait 6000\napp n2 b\nbind 10 rdp\n"
            "recv 0 %d\n" % (packets, packets))


def other_port(link, frame, bit):
    """Of the packet that asks for a second connection the port becomes that of the first."""
    return two_nodes(link, "fault l ab %d flip %d" % (frame, bit), "app n1 a", "connect 0 2 10 rdp", "connect 1 2 10 rdp", "app n2 b",
                     "bind 10 rdp")


def forged_inside():
    """A packet in a payload, as one of a connection."""
    payload, bit = smuggled(bytes.fromhex("8222b0020400000000"))
    return two_nodes("kiss header", "fault l ab 3 flip %d" % bit, "app n1 a", "connect 0 2 10 rdp", "raw 8222b000 " + payload, "wait 9", "app n2 b",
                     "bind 10 rdp")


# Name, text, the condition that it breaks alone, its counts `stale` and `passed`, and whether what is taken is a beginning of what was sent.
MADE = (
    ("a frame in a payload", changed_inside, "plain", 0, 1, True),
    ("numbers worn out", worn_out, "numbers", 0, 1, True),
    ("two senders of one source", one_source, "sources", 0, 1, True),
    ("a forged packet", forged, "raw", 1, 0, True),
    ("a connection to all", to_all, "broadcast", 1, 0, True),
    ("a port used again", again, "twice", 1, 0, True),
    ("a late opening", late_opening, "twice", 4, 0, True),
    ("late data", late_data, "twice", 1, 0, False),
    ("32,767 packets", lambda: long_burst(MOST_SENT + 1), "long", 1, 0, True),
    ("32,766 packets", lambda: long_burst(MOST_SENT), None, 0, 0, True),
    ("another port, KISS", lambda: other_port("kiss", 3, 39), "payload CRC", 1, 1, True),
    ("another port, bus", lambda: other_port("can", 8, 23), "bus", 1, 1, True),
    ("a forged packet in a payload", forged_inside, "plain", 1, 1, True),
)


def forges_nothing(text):
    """The text connects reliably where someone waits, and no packet of its `raw` lines has the flag RDP."""
    lines = [l.split() for l in text.split("\n")]
    raws = [w[1] for w in lines if w[:1] == ["raw"] and len(w) > 1]
    return (any(w[:1] == ["connect"] and "rdp" in w for w in lines) and any(w[:1] == ["bind"] for w in lines)
            and not any(int(h, 16) & 2 for h in raws))


class Tally:
    """What all runs came to."""

    def __init__(self):
        self.runs = self.ordinary = self.all = self.peers = self.had_peers = 0
        self.alone = {c: [0, 0] for c in PASSED}
        self.stale_alone = {c: [0, 0] for c in PASSED + STALE}
        self.failed = []

    def add(self, told, name):
        self.runs += 1
        self.had_peers += told.peers
        changes = told.breaks(PASSED)
        if not changes:
            self.ordinary += 1
            if told.passed:
                self.failed.append("%s: no condition of passed is broken, and passed is %d" % (name, told.passed))
        if len(changes) == 1:
            self.alone[changes[0]][0] += 1
            self.alone[changes[0]][1] += told.passed > 0
        if not told.broken:
            self.all += 1
            self.peers += told.peers
            if told.stale or not told.prefix:
                self.failed.append("%s: no condition is broken, and stale is %d, or something else was taken than sent" % (name, told.stale))
        if len(told.broken) == 1:
            (condition,) = told.broken
            self.stale_alone[condition][0] += 1
            self.stale_alone[condition][1] += told.stale > 0

    def tell(self, window):
        print("%d runs, %d of them with a reliable connection that has a peer" % (self.runs, self.had_peers))
        print("passed: in %d of them all its conditions hold" % self.ordinary)
        for condition, (broke, counted) in self.alone.items():
            print("  %s: %d break it and none of the other four, %d of them count a changed packet" % (condition, broke, counted))
            if not counted:
                self.failed.append("%s: no run that breaks it alone counts a changed packet" % condition)
        print("stale: in %d of them all conditions hold, %d of these with a reliable connection that has a peer" % (self.all, self.peers))
        for condition, (broke, counted) in self.stale_alone.items():
            print("  %s: %d break it and none of the other eight, %d of them count a stale copy" % (condition, broke, counted))
            if not counted and condition in STALE:
                self.failed.append("%s: no run that breaks it alone counts a stale copy" % condition)
        print("window: %d data packets handed before anything was counted, %d past the window, %d at its end; by its size, %s" % (
            window.handed, window.past, sum(window.at.values()), ", ".join("%d: %d" % w for w in sorted(window.at.items()))))
        if window.past:
            self.failed.append("window: %d data packets past it" % window.past)
        if not any(size > 1 for size in window.at):
            self.failed.append("window: no data packet at the end of one that is larger than 1")


def counts(program, words, text=""):
    """The two counts of what the program writes."""
    got = subprocess.run([program] + words, input=text.encode("latin-1"), stdout=subprocess.PIPE, stderr=subprocess.DEVNULL)
    lines = got.stdout.decode("ascii").split("\n")[-3:-1]
    return [tuple(l.split()) for l in lines] if got.returncode == 0 else None


def missions(model, program, failed):
    """The mission, and what `gen` makes: ordinary, by the model; nothing counted, by the program."""
    with open(os.path.join(HERE, "..", "scenarios", "mission.scn"), encoding="latin-1") as f:
        texts = [("mission", ["sim"], f.read())]
    texts += [("gen %d" % n, ["gen", "%d" % n], model.mission.text(n).decode("ascii")) for n in range(1, 501)]
    good = 0
    for name, words, text in texts:
        told = model.run(text)
        got = counts(program, words, text)
        if told.broken or not told.peers or got != [("stale", "0"), ("passed", "0")]:
            failed.append("%s: breaks %s, counts %s" % (name, sorted(told.broken), got))
        else:
            good += 1
    print("missions: in %d of %d all conditions hold, a connection has a peer, and the program counts nothing" % (good, len(texts)))


def main(folder, count, start, peers, program):
    model, tally = Model(folder), Tally()
    for name, text, *expected in MADE:
        told = model.run(text())
        tally.add(told, name)
        found = [", ".join(told.broken) or None, told.stale, told.passed, told.prefix]
        print("made: %s: breaks %s; stale %d, passed %d%s" % (name, *found[:3], "" if told.prefix else ", and something else is taken than sent"))
        if found != expected:
            tally.failed.append("%s: not as expected" % name)
        if program and counts(program, ["sim"], text()) != [("stale", "%d" % told.stale), ("passed", "%d" % told.passed)]:
            tally.failed.append("%s: the program counts %s" % (name, counts(program, ["sim"], text())))
    for seed in range(start, start + count):
        for text in dict.fromkeys(variants(model.scenario(seed), seed)):
            told = model.run(text)
            if told:
                tally.add(told, "seed %d" % seed)
    seed = start + count
    while tally.peers < peers:
        text = model.scenario(seed)
        for tried in dict.fromkeys((text, late(text, seed))) if forges_nothing(text) else ():
            told = model.run(tried)
            if told:
                tally.add(told, "seed %d" % seed)
        seed += 1
    print("seeds %d to %d, from %d on those alone that connect reliably and forge nothing" % (start, seed - 1, start + count))
    if program:
        missions(model, program, tally.failed)
    tally.tell(model.window)
    for line in tally.failed:
        print("ordinary: " + line)
    return 1 if tally.failed else 0


if __name__ == "__main__":
    words = argparse.ArgumentParser(usage=__doc__.split("\n")[2][7:])
    words.add_argument("model")
    words.add_argument("count", nargs="?", type=int, default=1000)
    words.add_argument("start", nargs="?", type=int, default=1)
    words.add_argument("--peers", type=int, default=1000)
    words.add_argument("--program")
    given = words.parse_args()
    sys.exit(main(given.model, given.count, given.start, given.peers, given.program))
