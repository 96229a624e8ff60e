#!/usr/bin/env python3
"""Reels that try the rules of docs/FORMAT.md and docs/REFUSALS.md, and the lines that the rules give.

Writes crates/cases/stdin, a line 'NAME: BYTES' for each reel in hexadecimal, and crates/cases/stdout, what has to be
printed for it: 'NAME: LINE', and the first refused packet if there is one. Both are worked out here, by a reading of the
rules that shares nothing with the library.
"""

import pathlib
import struct

INTERVAL = [8, 8, 8, 16, 16, 32, 32]
QUADLETS = {0: 1, 1: 3}


# --- the rules -----------------------------------------------------------------------------------


class Refused(Exception):
    """A number and a place in the packet, and what is refused there."""


def read_unit(event, unit):
    """Raises the number and the place of the refusal, if no unit has these bytes."""
    if event == 1:
        return
    label = unit[0]
    if not (label < 0x20 or 0x30 <= label < 0x43 or 0x80 <= label < 0x84):
        raise Refused(14, 0)
    if label == 0x41 and unit[3] % 16 or label == 0x42 and unit[3]:
        raise Refused(15, 1)
    if label >= 0x80:
        for at in range(1 + label - 0x80, 4):
            if unit[at]:
                raise Refused(16, at)


class Listener:
    def __init__(self, event, sfc, dimension):
        self.event, self.sfc, self.dimension = event, sfc, dimension
        self.interval = INTERVAL[sfc]
        self.block = 4 * QUADLETS[event] * dimension
        self.next = self.heard = self.missed = 0
        self.last = None

    def hear(self, cycle, packet, room=1022):
        """The gap; a refused packet changes nothing."""
        if self.last is not None and cycle <= self.last:
            raise Refused(5, 0)
        if not 8 <= len(packet) <= 4096 or len(packet) % 4:
            raise Refused(7, 0)
        sid, dbs, zero, dbc, fmt, fdf = packet[:6]
        syt = packet[6] * 256 + packet[7]
        if sid > 63 or fmt != 0x90 or zero or dbs != self.dimension * QUADLETS[self.event]:
            raise Refused(8, 0)
        idle = fdf == 0xFF
        if not idle and fdf != 16 * self.event + self.sfc:
            raise Refused(9, 5)
        blocks = 0 if idle else self.read(packet[8:], dbc, syt, room)
        gap = (dbc - self.next) % 256
        self.next += gap + blocks
        self.heard += blocks
        self.missed += gap
        self.last = cycle
        return gap

    def read(self, payload, dbc, syt, room):
        """The number of blocks."""
        blocks, rest = divmod(len(payload), self.block)
        if rest or blocks > self.interval:
            raise Refused(10, 8)
        stamped = [i for i in range(blocks) if (dbc + i) % self.interval == 0]
        if syt != 0xFFFF and (syt % 4096 > 3071 or not stamped):
            raise Refused(11, 6)
        if room < blocks * self.dimension:
            raise Refused(12, 8)
        size = 4 * QUADLETS[self.event]
        for index, at in enumerate(range(0, len(payload), size)):
            try:
                read_unit(self.event, payload[at : at + size])
            except Refused as fault:
                number, place = fault.args
                block, unit = divmod(index, self.dimension)
                inside = f"block {block}, unit {unit}: refused {number} at {place}"
                raise Refused(13, 8 + at + place, inside) from None
        return blocks


def refused_reel(number, place):
    return f"reel refused {number} at {place}"


def lines(reel):
    """The line for a reel, and the first refused packet."""
    if not 12 <= len(reel) <= 65536:
        return [refused_reel(18, 0)]
    end = len(reel) - 12
    last, count, event, sfc, dimension = struct.unpack(">IIBBH", reel[end:])
    if event > 1:
        return [refused_reel(22, end + 8)]
    if sfc > 6:
        return [refused_reel(1, end + 9)]
    if dimension == 0 or 2 + INTERVAL[sfc] * dimension * QUADLETS[event] > 1024:
        return [refused_reel(2, end + 10)]
    records, at, found = [], 0, 0xFFFFFFFF
    while at < end:
        if at + 6 > end:
            return [refused_reel(19, at)]
        cycle, length = struct.unpack(">IH", reel[at : at + 6])
        if at + 6 + length > end:
            return [refused_reel(19, at)]
        records.append((at, cycle, reel[at + 6 : at + 6 + length]))
        found = at
        at += 6 + length
    if last != found or count != len(records):
        return [refused_reel(20, end)]
    listener = Listener(event, sfc, dimension)
    gaps, faults = [], []
    for number, (place, cycle, packet) in enumerate(records):
        try:
            gaps.append(listener.hear(cycle, packet))
        except Refused as fault:
            faults.append((number, place, *fault.args))
    gaps = [gap for gap in gaps if gap]
    widest = max(gaps, default=0)
    refused = len(faults)
    if listener.missed == 0:
        grade = "clear"
    elif refused:
        grade = "doubtful"
    elif widest <= INTERVAL[sfc]:
        grade = "marked"
    else:
        grade = "worn"
    figures = (
        f"heard {listener.heard} missed {listener.missed} gaps {len(gaps)} widest {widest}"
        f" refused {refused} grade {grade}"
    )
    return [figures] + [first_refused(*fault) for fault in faults[:1]]


def first_refused(record, place, number, inside, unit=None):
    text = f"  record {record}: refused {number} at {place}, in the packet at {inside}"
    return text if unit is None else f"{text}, {unit}"


# --- making reels --------------------------------------------------------------------------------

SILENCE = bytes([0x40, 0, 0, 0])


def packet(dbc, units, sid=1, dbs=2, zero=0, fmt=0x90, fdf=2, syt=0xFFFF):
    return bytes([sid, dbs, zero, dbc % 256, fmt, fdf, syt // 256, syt % 256]) + units


def blocks(dbc, count, **fields):
    """A packet of silent blocks of two units."""
    return packet(dbc, SILENCE * (2 * count), **fields)


def reel(records, event=0, sfc=2, dimension=2, last=None, count=None):
    body, found = b"", 0xFFFFFFFF
    for cycle, bytes_ in records:
        found = len(body)
        body += struct.pack(">IH", cycle, len(bytes_)) + bytes_
    last = found if last is None else last
    count = len(records) if count is None else count
    return body + struct.pack(">IIBBH", last, count, event, sfc, dimension)


def run(count, size=6, start=0, cycle=1, skip=(), **fields):
    """Packets one after another in cycles one after another, without those at the indices of skip."""
    return [
        (cycle + i, blocks(start + i * size, size, **fields)) for i in range(count) if i not in skip
    ]


WORKED = [(1, blocks(0, 7, syt=0x2A00)), (3, blocks(10, 0))]
TWO = [(1, blocks(0, 7)), (2, blocks(7, 3))]

CASES = {
    # what a run is
    "no records": reel([]),
    "nothing missing": reel(TWO),
    "three blocks missing": reel(WORKED),
    "as many as the interval missing": reel([(1, blocks(0, 4)), (2, blocks(12, 4))]),
    "one more than the interval missing": reel([(1, blocks(0, 4)), (2, blocks(13, 4))]),
    "the widest gap first": reel([(1, blocks(5, 1)), (2, blocks(7, 1)), (3, blocks(11, 1))]),
    "the widest gap in the middle": reel([(1, blocks(1, 1)), (2, blocks(9, 1)), (3, blocks(12, 1))]),
    "gaps at the interval of 192 kHz": reel(
        [(1, blocks(32, 8, fdf=6, dbs=1)[:40]), (2, blocks(64, 8, fdf=6, dbs=1)[:40])], sfc=6, dimension=1
    ),
    # the count of eight bits
    "a run across the wrap": reel(run(50)),
    "a gap at the wrap": reel(run(50, skip=(42,))),
    "a gap that ends at the wrap": reel([(1, blocks(0, 8)), (2, blocks(256, 8))]),
    "255 missing": reel([(1, blocks(0, 1)), (2, blocks(0, 1))]),
    "256 missing look like none": reel([(1, blocks(0, 1)), (2, blocks(257, 1))]),
    "255 missing before the first block": reel([(1, blocks(255, 1))]),
    # idle and empty packets
    "idle with a dummy payload": reel([(1, blocks(0, 4)), (2, blocks(4, 5, fdf=0xFF)), (3, blocks(4, 4))]),
    "idle with a payload that is no blocks": reel([(1, packet(0, bytes(4), fdf=0xFF)), (2, blocks(0, 4))]),
    "idle opens a gap": reel([(1, blocks(0, 4)), (2, packet(6, b"", fdf=0xFF)), (3, blocks(6, 4))]),
    "idle with a stamp that is none": reel([(1, packet(0, b"", fdf=0xFF, syt=0x0FFF))]),
    "idle keeps its cycle": reel([(5, packet(0, b"", fdf=0xFF)), (5, blocks(0, 4))]),
    "empty opens a gap": reel([(1, blocks(0, 4)), (2, blocks(9, 0)), (3, blocks(9, 4))]),
    # refused packets
    "a packet refused, nothing missing": reel([(1, blocks(0, 4)), (2, b"\0" * 7), (3, blocks(4, 4))]),
    "a packet refused, blocks missing": reel([(1, blocks(0, 4)), (2, blocks(4, 4, sid=64)), (3, blocks(8, 4))]),
    "a refused packet keeps no cycle": reel([(9, b""), (1, blocks(0, 4))]),
    "cycles out of order": reel([(2, blocks(0, 4)), (1, blocks(4, 4)), (3, blocks(4, 4))]),
    "a cycle twice": reel([(2, blocks(0, 4)), (2, blocks(4, 4))]),
    "the last cycle there is": reel([(0xFFFFFFFF, blocks(0, 4)), (0xFFFFFFFF, blocks(4, 4))]),
    "a packet of the other zero byte": reel([(1, blocks(0, 4, zero=1))]),
    "a packet of another format": reel([(1, blocks(0, 4, fmt=0x91))]),
    "a packet of another size": reel([(1, blocks(0, 4, dbs=3))]),
    "a packet of another rate": reel([(1, blocks(0, 4, fdf=3))]),
    "a packet of another event type": reel([(1, blocks(0, 4, fdf=0x12))]),
    "a packet that ends inside a block": reel([(1, packet(0, SILENCE * 3))]),
    "a packet of nine blocks": reel([(1, blocks(0, 9))]),
    "a packet of 4,096 bytes": reel([(1, packet(0, SILENCE * 1022))]),
    "a packet of 4,100 bytes": reel([(1, packet(0, SILENCE * 1023, fdf=0xFF))]),
    "an idle packet of 4,096 bytes": reel([(1, packet(0, SILENCE * 1022, fdf=0xFF))]),
    "the last tick of a cycle": reel([(1, blocks(0, 4, syt=0x2BFF))]),
    "a tick that no cycle has": reel([(1, blocks(0, 4, syt=0x2C00))]),
    "a stamp and no stamped block": reel([(1, blocks(0, 1)), (2, blocks(1, 7, syt=0))]),
    "a stamp for the last block": reel([(1, blocks(0, 1)), (2, blocks(1, 8, syt=0))]),
    "every label of a unit": reel(
        [(1, packet(0, bytes([0x0F, 1, 2, 3, 0x1A, 1, 2, 3, 0x3F, 1, 2, 3, 0x41, 1, 2, 0xF0])))]
    ),
    "a label that no unit has": reel([(1, packet(0, SILENCE + bytes([0x43, 0, 0, 0])))]),
    "padding that is not zero": reel([(1, packet(0, SILENCE + bytes([0x42, 0, 0, 1])))]),
    "a MIDI byte beyond the count": reel([(1, packet(0, SILENCE + bytes([0x81, 0x90, 0x3C, 0])))]),
    "three MIDI bytes": reel([(1, packet(0, SILENCE + bytes([0x83, 0x90, 0x3C, 0x40])))]),
    "a unit of a later block": reel([(1, packet(0, SILENCE * 5 + bytes([0x80, 0, 0, 1])))]),
    "a unit of a later record": reel([(1, blocks(0, 4)), (2, packet(4, SILENCE + b"\xff" * 4)), (3, blocks(4, 4))]),
    "two packets refused": reel([(1, blocks(0, 4)), (2, blocks(4, 4, fdf=3)), (3, blocks(4, 4, sid=99)), (4, blocks(8, 4))]),
    # which cause of a packet comes first
    "cycle before length": reel([(1, blocks(0, 4)), (1, bytes(9))]),
    "length before header": reel([(1, bytes(9))]),
    "header before format": reel([(1, blocks(0, 4, sid=64, fdf=3))]),
    "format before payload": reel([(1, packet(0, SILENCE * 3, fdf=3))]),
    "payload before stamp": reel([(1, packet(0, SILENCE * 3, syt=0x0FFF))]),
    "stamp before unit": reel([(1, packet(0, SILENCE + b"\xff" * 4, syt=0x0FFF))]),
    # packs
    "packs": reel(
        [(1, packet(0, bytes(range(24)), dbs=3, fdf=0x12)), (2, packet(5, bytes(12), dbs=3, fdf=0x12))],
        event=1,
        dimension=1,
    ),
    "quadlets among packs": reel([(1, blocks(0, 6))], event=1, dimension=1),
    "42 packs a block": reel([(1, packet(0, bytes(12 * 42), dbs=126, fdf=0x12))], event=1, dimension=42),
    # reels that are refused, and which cause comes first
    "an empty file": b"",
    "eleven bytes": reel([])[1:],
    "event type 2": reel(TWO, event=2),
    "event type 2 before the rate": reel(TWO, event=2, sfc=7, dimension=0, count=5),
    "rate code 7": reel(TWO, sfc=7),
    "rate code 7 before the dimension": reel(TWO, sfc=7, dimension=0, last=1),
    "dimension 0": reel(TWO, dimension=0),
    "dimension 127": reel([], dimension=127),
    "dimension 128": reel([], dimension=128),
    "43 packs a block": reel([], event=1, dimension=43),
    "dimension before a cut record": reel(TWO, dimension=128)[70:],
    "a record cut by the trailer": reel(TWO)[:69] + reel(TWO)[-12:],
    "a record's head cut by the trailer": reel(TWO)[:75] + reel(TWO)[-12:],
    "a record cut before a wrong count": reel(TWO)[:101] + reel(TWO, count=3)[-12:],
    "a wrong last place": reel(TWO, last=0),
    "a wrong count": reel(TWO, count=3),
    "a last place without records": reel([], last=0),
    "no last place with a record": reel(TWO[:1], last=0xFFFFFFFF),
    "a record without a packet": reel([(1, b"")]),
}


def main():
    folder = pathlib.Path(__file__).parent.parent / "crates" / "cases"
    with open(folder / "stdin", "w") as stdin, open(folder / "stdout", "w") as stdout:
        for name, bytes_ in CASES.items():
            print(f"{name}: {bytes_.hex()}", file=stdin)
            print(f"{name}: " + "\n".join(lines(bytes_)), file=stdout)


if __name__ == "__main__":
    main()
