#!/usr/bin/env python3
"""Generates scripts for airbench from a seed.

generate.py scripts SEED COUNT DIRECTORY    writes COUNT scripts, 00000.script and on, into DIRECTORY
generate.py full SEED FILE                  writes one well-formed script of exactly 65,536 bytes
generate.py long SEED FILE                  writes one well-formed script, with long frames and many requests

The same seed gives the same scripts. Each script has its own generator, so script 17 is the same whatever COUNT is.
"""

import random
import sys

SCRIPT_BYTES = 65_536
LINE_BYTES = 200

SERVICES = ["rqs", "rqr", "rqe"]
FUNCTIONS = ["alh", "alhs", "alhd", "alhe", "alhr", "alhx", "alhf", "unknown"]
KINDS = ["ack", "acki", "ackx", "ackv", "acke", "acko"]
NAMES = ["make", "tune", "begin", "take", "sent", "held", "cancel", "slot"]
CONTENTS = ["deaf", "data", "aloha", "reply", "go", "ahy", "ahyq", "head", "mark", "bcast", "move", "other"]
OTHERS = ["mask", "draws", "regi", "end", "open", "tak", "slots", "rq", "alhq", "ackk", "marks", "Mark", "TAKE", "0"]
WORDS = SERVICES + FUNCTIONS + KINDS + NAMES + CONTENTS + OTHERS

# Numbers at and around the limits of every field.
EDGES = [0, 1, 2, 3, 4, 7, 8, 15, 16, 20, 21, 31, 32, 33, 1023, 1024, 8191, 8192, 32767, 32768, 59999, 60000, 60001,
         65535, 65536, 1048575, 1048576, 9999999]

# Bytes that are likely to trouble a reader of lines.
BYTES = b"()  \t\r\0\x7f\x80\xff\n0159xA-+.\"';"


class Maker:
    """Makes the lines of one script. Its traits decide how often what is said."""

    def __init__(self, rng):
        self.rng = rng
        self.own = rng.choice([0, 5, 77, 1301, 1048575, rng.randrange(1 << 20)])
        self.mask, self.value, self.codes, self.strange = rng.choice([
            (0, 0, [77, 0, 32767], [77]),
            (0, 0, [77], [77]),
            (32512, 256, [256, 300, 511], [77, 512, 255]),
            (1, 1, [1, 77, 32767], [0, 78]),
            (32767, 1283, [1283], [1282, 1284]),
            (9999999, 77, [77], [5, 76]),
            (3, 4, [4], [0, 3]),
        ])
        # Short limits are reached often, long ones let a request go deep.
        self.nr = rng.choice([1, 1, 2, 2, 3, 5, 32])
        self.tc = rng.choice([1, 2, 3, 5, 9, 20, 40, 100, 60000])
        self.ts = rng.choice([1, 2, 3, 8, 60000])
        self.tj = rng.choice([1, 2, 3, 6, 12, 30, 60000])
        self.nw = rng.choice([0, 0, 1, 2, 5, 15])
        self.functions = rng.choice([FUNCTIONS, FUNCTIONS, ["alh"], ["alhs", "alhr"], ["alhe", "alhx"],
                                     ["alhd", "alh"]])
        self.numbers = rng.choice([list(range(16)), [1, 1, 2], [0, 3, 5], [15, 14, 13, 0], [1, 0, 0, 0]])
        self.delays = rng.choice([list(range(8)), [0], [0, 1], [5, 6, 7]])
        self.divisions = rng.choice([[0], [0, 0, 0, 1, 2], list(range(21)), [19, 20], [0, 20]])
        self.silent = rng.choice([0, 0, 0.02, 0.1, 0.4])      # slots without a code
        self.unlike = rng.choice([0, 0, 0.005, 0.03])         # slots with a code that is not accepted
        self.moving = rng.choice([0, 0, 0.02, 0.1])
        self.answering = rng.choice([0, 0.02, 0.1, 0.3])
        self.deafness = rng.choice([0, 0.05, 0.3])
        self.aloha = rng.choice([0.1, 0.3, 0.7])
        self.beginning = rng.choice([0.05, 0.2, 0.5])
        self.taking = rng.choice([0.1, 0.5, 0.95])
        self.sending = rng.choice([0.1, 0.6, 0.98])
        self.leaving = rng.choice([0, 0, 0.01, 0.05])         # cancel and tune
        self.edging = rng.choice([0, 0, 0, 0.02, 0.2])        # any number at the edge of some range
        self.services = rng.choice([SERVICES, SERVICES, ["rqs"], ["rqr"], ["rqe"]])
        if rng.random() < 0.4:
            self.go_deep()

    def go_deep(self):
        """A quiet channel and a diligent host, so that requests come to their transmissions and answers."""
        rng = self.rng
        self.tc = rng.choice([20, 40, 100, 60000])
        self.tj = rng.choice([3, 12, 30])
        self.ts = 60000
        self.divisions = rng.choice([[0], [0, 0, 1], [0, 3, 20]])
        self.functions = rng.choice([["alh", "alhs"], FUNCTIONS])
        self.silent = self.unlike = self.edging = self.leaving = 0
        self.moving = rng.choice([0, 0, 0.01])
        self.answering, self.deafness = rng.choice([0.02, 0.1]), rng.choice([0, 0.05])
        self.aloha = rng.choice([0.3, 0.7])
        self.taking, self.sending = 0.97, 0.95

    def chance(self, probability):
        return self.rng.random() < probability

    def number(self, usual):
        """Usually the number given; sometimes one at an edge."""
        if self.edging and self.chance(self.edging):
            return self.rng.choice(EDGES)
        return usual

    def address(self):
        own = self.own
        other = own ^ (1 << self.rng.randrange(20))
        return self.number(self.rng.choice([own, own, own, own ^ 1, own ^ 4, other, 0, 9]))

    def near(self):
        """An address that often fits the own one under a small M."""
        own = self.own
        return self.number(self.rng.choice([own, own, 0, own ^ (1 << self.rng.randrange(20))]))

    def make(self):
        rng = self.rng
        draws = " ".join(str(self.number(rng.choice([rng.randrange(40), rng.randrange(10 ** rng.randrange(1, 8))])))
                         for _ in range(rng.choice([0, 1, 2, 5, 15, 16])))
        fields = [self.own, rng.randrange(1024), self.nr, self.tc, self.ts, self.tj, self.nw]
        fields = " ".join(str(self.number(field)) for field in fields)
        return f"(make {fields} (mask {self.mask} {self.value}) (draws{' ' if draws else ''}{draws}))"

    def answer(self):
        rng = self.rng
        if self.chance(0.25):
            pair = [self.address(), rng.choice([self.own, 9])]
            rng.shuffle(pair)
            return f"(go {pair[0]} {pair[1]} {self.number(rng.randrange(1024))} {self.number(rng.randrange(4))})"
        # Registrations are answered with REGI, calls with a plain ident; sometimes it is the other way round.
        plain = str(self.number(rng.choice([rng.randrange(8192), 8191])))
        first = "regi" if ("rqr" in self.services) == self.chance(0.6) else plain
        kind = rng.choice(["ack", "ack", "acki", "acki", "acki", "ackx", "ackx", "ackv", "acke", "acko"])
        return (f"(reply {kind} {self.number(rng.randrange(2))} {self.number(rng.choice(self.numbers))} {first} "
                f"{self.address()})")

    def content(self):
        rng = self.rng
        if self.chance(self.moving):
            m = self.number(rng.choice([0, 1, 3, 19, 20]))
            return f"(move {m} {self.near()} {self.number(rng.randrange(1024))})"
        if self.chance(self.answering):
            return self.answer()
        if self.chance(self.deafness):
            bit, other = self.number(rng.randrange(2)), self.number(rng.randrange(2))
            return rng.choice(["(deaf)", "(other)", f"(data {bit} {other})", f"(ahy {bit} {self.address()})",
                               f"(ahyq {bit} {self.address()})", f"(head {self.address()})"])
        if self.chance(self.aloha):
            return (f"(aloha {rng.choice(self.functions)} {self.number(rng.choice(self.numbers))} "
                    f"{self.number(rng.choice(self.delays))} {self.number(rng.choice(self.divisions))} {self.near()})")
        # Contents that leave the next slot free: markers to others, and plain ones.
        return rng.choice(["(mark)", "(mark)", "(bcast)",
                           f"(reply acko 0 {self.number(rng.choice(self.numbers))} regi {self.own ^ 2})",
                           f"(go {self.own ^ 1} {self.own ^ 2} 1 {self.number(rng.randrange(4))})"])

    def slot(self):
        if self.chance(self.silent):
            return f"(slot {self.content()})"
        code = self.rng.choice(self.strange if self.chance(self.unlike) else self.codes)
        return f"(slot {self.number(code)} {self.content()})"

    def step(self):
        """A slot and what the host does after it."""
        rng = self.rng
        lines = [self.slot()]
        if self.chance(self.beginning):
            lines.append(f"(begin {rng.choice(self.services)})")
        if self.chance(self.taking):
            lines.append("(take)")
            if self.chance(self.sending):
                lines.append("(sent)")
            elif self.chance(0.8):
                lines.append("(held)")
            # Else the permit stays out for a while.
        if self.chance(self.leaving):
            lines.append(rng.choice(["(cancel)", f"(tune {self.number(rng.randrange(1024))})"]))
        if self.chance(0.02):
            lines.append(rng.choice(["(sent)", "(held)", "(take)", "(cancel)", "(tune 1024)", self.make()]))
        return lines

    def lines(self, steps):
        lines = [self.make()]
        if self.chance(0.05):
            lines = ["(take)", "(slot 77 (mark))"] + lines
        if self.edging:
            # A make at an edge may be refused: try again without.
            edging, self.edging = self.edging, 0
            lines.append(self.make())
            self.edging = edging
        for _ in range(steps):
            lines += self.step()
        return lines


def words_of(line):
    """The starts and ends of the words of a line."""
    spans, start = [], None
    for at, byte in enumerate(line + b" "):
        if byte in b"() ":
            if start is not None:
                spans.append((start, at))
                start = None
        elif start is None:
            start = at
    return spans


def damage(rng, line):
    """One damage to a line. The result may hold a line end."""
    kind = rng.randrange(14)
    at = rng.randrange(len(line) + 1)
    if kind == 0:                                            # another byte
        return line[:at] + bytes([rng.choice(BYTES)]) + line[at + 1:]
    if kind == 1:                                            # any byte
        return line[:at] + bytes([rng.randrange(256)]) + line[at + 1:]
    if kind == 2:                                            # a byte more
        return line[:at] + bytes([rng.choice(BYTES)]) + line[at:]
    if kind == 3:                                            # a byte less
        return line[:at] + line[at + 1:]
    if kind == 4:                                            # cut
        return line[:at]
    if kind == 5:                                            # cut in front
        return line[at:]
    if kind == 6:                                            # spaces more
        spaces = [at for at, byte in enumerate(line) if byte in b" ()"]
        at = rng.choice(spaces) if spaces else at
        at += rng.randrange(2)
        return line[:at] + b" " * rng.randrange(1, 3) + line[at:]
    if kind == 7:                                            # long, about the limit of a line
        length = rng.choice([199, 200, 201, 202, 500])
        fill = rng.choice([b" ", b"x", b"(", b")", b"0", b"\0"])
        return line[:at] + fill * max(0, length - len(line)) + line[at:]
    if kind == 8:                                            # large letters
        return line.upper() if at % 2 else line.capitalize()
    if kind == 9:                                            # a carriage return
        return line + b"\r"
    spans = words_of(line)
    if not spans:
        return line + b"("
    start, end = rng.choice(spans)
    if kind == 10:                                           # another word
        return line[:start] + rng.choice(WORDS).encode() + line[end:]
    if kind == 11:                                           # a word more or less
        return line[:end] + line[start - 1:] if rng.randrange(2) else line[:max(0, start - 1)] + line[end:]
    if kind == 12:                                           # another number, also no number at all
        number = rng.choice(["00", "01", "10000000", "9999999", "99999999", "0x1", "1.", "-1", "",
                             str(rng.choice(EDGES))])
        return line[:start] + number.encode() + line[end:]
    other, other_end = rng.choice(spans)                     # two words change places
    if other == start:
        return line + line[start:end]
    if other < start:
        start, end, other, other_end = other, other_end, start, end
    return line[:start] + line[other:other_end] + line[end:other] + line[start:end] + line[other_end:]


def one_per_line(rng, maker):
    """A script in which every line is a damaged one, so that many faults are met."""
    lines = [maker.make().encode()]
    for _ in range(rng.randrange(20, 120)):
        line = rng.choice([maker.make(), maker.slot(), maker.slot(), maker.slot(), rng.choice(maker.step()),
                           f"(tune {rng.choice(EDGES)})", f"(begin {rng.choice(SERVICES)})"]).encode()
        for _ in range(rng.choice([0, 1, 1, 1, 2, 4])):
            line = damage(rng, line)
        lines.append(line)
    return b"\n".join(lines)


def noise(rng):
    """Bytes and words in no order."""
    parts = []
    for _ in range(rng.randrange(300)):
        parts.append(rng.choice([b"(", b")", b" ", b" ", b"\n", rng.choice(WORDS).encode(), bytes([rng.randrange(256)]),
                                 str(rng.choice(EDGES)).encode()]))
    return b"".join(parts)


def many_draws(rng, maker):
    """makes about the limit of sixteen draws and of 200 bytes; all but the granted one are tried before it."""
    lines = []
    for _ in range(rng.randrange(3, 12)):
        count = rng.choice([0, 1, 14, 15, 16, 17, 18])
        draws = "".join(f" {rng.randrange(10 ** rng.randrange(1, 9))}" for _ in range(count))
        fields = " ".join(str(rng.choice(EDGES + [5, 5, 5])) for _ in range(7))
        lines.append(f"(make {fields} (mask {rng.choice(EDGES)} {rng.choice(EDGES)}) (draws{draws}))")
    lines += maker.lines(rng.randrange(30))
    return "\n".join(lines).encode()


def at_the_limit(rng, maker):
    """A script with about 65,536 bytes."""
    size = SCRIPT_BYTES + rng.choice([-2, -1, 0, 0, 1, 2, 100])
    lines = maker.lines(200)
    text = "\n".join(lines).encode() + b"\n"
    text = (text * (size // len(text) + 1))[:size]
    return text[:-1] + b"\n" if rng.randrange(2) else text


def script(seed, index):
    rng = random.Random(f"{seed}/{index}")
    maker = Maker(rng)
    kind = rng.random()
    if kind < 0.60:
        text = "\n".join(maker.lines(rng.choice([10, 40, 120, 300]))).encode()
    elif kind < 0.75:                                        # a good script with a few damaged lines
        lines = [line.encode() for line in maker.lines(rng.choice([20, 80]))]
        for _ in range(rng.randrange(1, 12)):
            at = rng.randrange(len(lines))
            lines[at] = damage(rng, lines[at])
        text = b"\n".join(lines)
    elif kind < 0.90:
        text = one_per_line(rng, maker)
    elif kind < 0.94:
        text = noise(rng)
    elif kind < 0.98:
        text = many_draws(rng, maker)
    else:
        return at_the_limit(rng, maker)
    # The last line may lack its end.
    return text + rng.choice([b"\n", b"\n", b"", b"\n\n"])


def full(seed):
    """A well-formed script of exactly 65,536 bytes."""
    rng = random.Random(f"{seed}/full")
    maker = Maker(rng)
    maker.mask, maker.value, maker.codes, maker.edging = 0, 0, [77, 1283], 0
    text = bytearray()
    for line in maker.lines(8000):
        line = line.encode() + b"\n"
        if len(text) + len(line) > SCRIPT_BYTES - 60:
            break
        text += line
    # Fill up with lines of 7 and 9 bytes.
    missing = SCRIPT_BYTES - len(text)
    nines = next(n for n in range(7) if (missing - 9 * n) % 7 == 0)
    text += b"(cancel)\n" * nines + b"(take)\n" * ((missing - 9 * nines) // 7)
    assert len(text) == SCRIPT_BYTES
    return bytes(text)


def long(seed):
    """One set, requests without end, long frames side by side."""
    rng = random.Random(f"{seed}/long")
    maker = Maker(rng)
    maker.own, maker.mask, maker.value, maker.codes = 1301, 0, 0, [1283]
    maker.nr, maker.tc, maker.ts, maker.tj, maker.nw = 5, 100, 60000, 30, 2
    maker.functions, maker.numbers, maker.delays, maker.divisions = ["alh", "alhs"], [13, 14, 15], [0, 1, 2], [0]
    maker.silent = maker.unlike = maker.moving = maker.edging = maker.leaving = 0
    maker.answering, maker.deafness, maker.aloha = 0.02, 0.05, 0.5
    maker.beginning, maker.taking, maker.sending, maker.services = 0.2, 0.6, 0.9, SERVICES
    text = "\n".join(maker.lines(3000)).encode()[:SCRIPT_BYTES]
    return text[:text.rindex(b"\n") + 1]


def main():
    mode, seed = sys.argv[1], sys.argv[2]
    if mode == "scripts":
        count, directory = int(sys.argv[3]), sys.argv[4]
        for index in range(count):
            with open(f"{directory}/{index:05}.script", "wb") as file:
                file.write(script(seed, index))
    elif mode in ("full", "long"):
        with open(sys.argv[3], "wb") as file:
            file.write(full(seed) if mode == "full" else long(seed))
    else:
        sys.exit(__doc__)


if __name__ == "__main__":
    main()
