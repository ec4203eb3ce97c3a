#!/usr/bin/env python3
"""A second implementation of some commands of the script language, to compare the program with.

    model.py < SCRIPT            prints what `tosraek script` should answer to the commands that it knows
    model.py --random N [SEED]   prints N random `grade` commands and N random line agreements with units that lie

It knows `grade` and the commands on lines. Other commands are passed over, so compare with the program's answers to a script
of these alone:

    tools/model.py --random 200 > /tmp/s; ./run script < /tmp/s | diff - <(tools/model.py < /tmp/s)
"""
import random
import re
import sys
from collections import Counter

SIGNS = b"ABCDEFGHIJKLMNOPQRSTUVWXYZ0123456789-"


def read_slot(kind, data):
    """The value that stands in a slot's bytes, as the program shows it, or None."""
    if kind == "position":
        number = int.from_bytes(data, "big")
        return str(number) if 1 <= number <= 2047 else None
    text = data.rstrip(b" ")
    return text.decode() if text and all(b in SIGNS for b in text) else None


def grade(kind, n, t, frames):
    width = 2 if kind == "position" else 8
    answers = []
    for s in range(n):
        counts = Counter()
        for frame in frames:
            if frame is not None and len(frame) == width * n:
                value = read_slot(kind, frame[width * s:width * s + width])
                if value is not None:
                    counts[value] += 1
        high = [v for v, k in counts.items() if k >= n - t]
        low = [v for v, k in counts.items() if k >= t + 1]
        if high:
            answers.append("2:" + high[0])
        elif len(low) == 1:
            answers.append("1:" + low[0])
        else:
            answers.append("0")
    return " ".join(answers)


def number(word):
    if not re.fullmatch(r"\+?[0-9]+", word) or int(word) >= 2 ** 64:
        return None
    return int(word)


def answer(line):
    words = line.split(" ")
    if "" in words[:4]:
        return "error: words are parted by one blank, and none stands before or behind them"
    if len(words) < 5:
        return "error: the command needs more words"
    kind, n, t = words[1], number(words[2]), number(words[3])
    if kind not in ("position", "label"):
        return "error: there is no such kind of value"
    if n is None or t is None:
        return "error: a number is not written in digits, or is too large"
    if not 1 <= n <= 16:
        return "fault 9 callout 0"
    if 3 * t + 1 > n:
        return "fault 10 callout 0"
    frames = []
    for word in words[4:]:
        if word == "":
            return "error: words are parted by one blank, and none stands before or behind them"
        if len(frames) == n:
            return "error: the command has too many words"
        if word == ".":
            frames.append(None)
        elif word == "-":
            frames.append(b"")
        elif len(word) % 2:
            return "error: the hex has an odd number of digits"
        elif not re.fullmatch("[0-9a-f]*", word):
            return "error: the hex has a character that is not 0 to 9 or a to f"
        else:
            frames.append(bytes.fromhex(word))
    if len(frames) < n:
        return "error: the command needs more words"
    return grade(kind, n, t, frames)


def random_frame(rng, kind, n, values):
    roll = rng.random()
    if roll < 0.05:
        return "."
    if roll < 0.08:
        return "-"
    slots = [rng.choice(values) for _ in range(n if roll < 0.95 else n + 1)]
    return b"".join(slots).hex()


def random_line(rng):
    kind = rng.choice(["position", "label"])
    n = rng.randint(1, 16)
    t = rng.randint(0, (n - 1) // 3)
    if rng.random() < 0.03:
        t += 1
    if kind == "position":
        values = [rng.randint(1, 2047).to_bytes(2, "big") for _ in range(2)] + [b"\0\0", b"\x08\0"]
    else:
        values = [b"C1      ", b"A-9     ", b"        ", b"c1      "]
    weights = values[:1] * rng.randint(1, 12) + values
    return f"grade {kind} {n} {t} " + " ".join(random_frame(rng, kind, n, weights) for _ in range(n))


def counts_of(frames, n, s):
    """How many frames of n position slots carry each value in slot s."""
    counts = Counter()
    for frame in frames:
        if frame is not None and len(frame) == 2 * n:
            value = read_slot("position", frame[2 * s:2 * s + 2])
            if value is not None:
                counts[int(value)] += 1
    return counts


def slot_bytes(value):
    return (value or 0).to_bytes(2, "big")


def clamp(value, top):
    return max(1, min(value, top))


def worst(m, spread, r, f):
    if r == 0:
        return spread
    return max(worst(m, -(-k * spread // m), r - 1, f - k) for k in range(f + 1))


class Line:
    def __init__(self, kind, n, t, own, span, position):
        self.kind, self.n, self.t, self.own = kind, n, t, own
        self.span = clamp(span, 2047)
        self.position = clamp(position, self.span)
        if kind == "halving":
            k = 0
            while 2 ** k < self.span - 1:
                k += 1
            self.rounds = k
        else:
            r = 0
            while worst(n - 2 * t, self.span - 1, r, t) > 1:
                r += 1
            self.rounds = 3 * r
        self.done = 0
        self.distrusted = set()
        self.slots = []

    def frame(self):
        if self.done == self.rounds:
            return b""
        if self.kind == "halving" or self.done % 3 == 0:
            return slot_bytes(self.position)
        return b"".join(slot_bytes(v) for v in self.slots)

    def middle(self, positions):
        listed = sorted(v if v is not None and v <= self.span else 1 for v in positions)
        return listed[self.t:len(listed) - self.t]

    def step(self, frames):
        if self.done == self.rounds:
            return
        frames = list(frames)
        frames[self.own] = self.frame()
        heard = []
        for frame in frames:
            value = read_slot("position", frame) if frame is not None and len(frame) == 2 else None
            heard.append(None if value is None else int(value))
        if self.kind == "halving":
            left = self.middle(heard)
            self.position = (left[0] + left[-1]) // 2
        elif self.done % 3 == 0:
            self.slots = [None if s in self.distrusted else heard[s] for s in range(self.n)]
        elif self.done % 3 == 1:
            self.slots = []
            for s in range(self.n):
                high = [v for v, k in counts_of(frames, self.n, s).items() if k >= self.n - self.t]
                self.slots.append(high[0] if high and s not in self.distrusted else None)
        else:
            graded = []
            for s in range(self.n):
                counts = counts_of(frames, self.n, s)
                high = [v for v, k in counts.items() if k >= self.n - self.t]
                low = [v for v, k in counts.items() if k >= self.t + 1]
                if high:
                    graded.append(high[0])
                    continue
                graded.append(low[0] if len(low) == 1 else None)
                self.distrusted.add(s)
            left = self.middle(graded)
            self.position = sum(left) // len(left)
        self.done += 1


def line_answer(lines, line):
    words = line.split(" ")
    if words[0] == "newline":
        if len(words) < 8:
            return "error: the command needs more words"
        name, kind = words[1], words[2]
        numbers = [number(w) for w in words[3:8]]
        if kind not in ("halving", "graded"):
            return "error: there is no such line agreement"
        if None in numbers:
            return "error: a number is not written in digits, or is too large"
        n, t, own = numbers[:3]
        for fault, wrong in ((9, not 1 <= n <= 16), (10, 3 * t + 1 > n), (11, own >= n)):
            if wrong:
                return f"fault {fault} callout 0"
        lines[name] = Line(kind, *numbers)
        return str(lines[name].rounds)
    if words[1] not in lines:
        return "error: there is no line of this name"
    unit = lines[words[1]]
    if words[0] == "lineframe":
        return unit.frame().hex() or "-"
    if words[0] == "lineresult":
        return str(unit.position)
    frames = [None if w == "." else b"" if w == "-" else bytes.fromhex(w) for w in words[2:]]
    if len(frames) != unit.n:
        return "error: the command needs more words" if len(frames) < unit.n else "error: the command has too many words"
    unit.step(frames)
    return "ok"


def random_play(rng):
    """A whole agreement, whose faulty units send anything to anyone; the honest units' frames are the model's own."""
    kind = rng.choice(["halving", "graded"])
    t = rng.randint(0, 2)
    n = rng.randint(3 * t + 1, 3 * t + 4)
    span = rng.choice([1, 2, 3, 7, 11, 40, 2047])
    faulty = rng.sample(range(n), rng.randint(0, t))
    honest = [i for i in range(n) if i not in faulty]
    units = {}
    for i in honest:
        position = rng.randint(0, span + 1)
        units[i] = Line(kind, n, t, i, span, position)
        yield f"newline u{i} {kind} {n} {t} {i} {span} {position}"
    for _ in range(units[honest[0]].rounds + 1):
        sent = {i: units[i].frame() for i in honest}
        for i in honest:
            yield f"lineframe u{i}"
        for i in honest:
            frames = []
            for j in range(n):
                if j == i:
                    frames.append(None)
                elif j in sent:
                    frames.append(sent[j])
                else:
                    length = len(sent[honest[0]])
                    low = [1, span, rng.randint(1, span), 0, 5000]
                    lie = b"".join(rng.choice(low).to_bytes(2, "big") for _ in range(length // 2))
                    frames.append(rng.choice([lie, lie, lie, None, lie + b"x", sent[rng.choice(honest)]]))
            units[i].step(frames)
            yield f"linestep u{i} " + " ".join("." if f is None else f.hex() or "-" for f in frames)
            yield f"lineresult u{i}"
    results = [units[i].position for i in honest]
    assert max(results) - min(results) <= 1, results


def main():
    if len(sys.argv) > 2 and sys.argv[1] == "--random":
        rng = random.Random(int(sys.argv[3]) if len(sys.argv) > 3 else 1)
        for _ in range(int(sys.argv[2])):
            print(random_line(rng))
            for line in random_play(rng):
                print(line)
        return
    lines = {}
    for line in sys.stdin:
        line = line.rstrip("\n")
        if line.startswith("grade "):
            print(f"{line} => {answer(line)}")
        elif line.split(" ")[0] in ("newline", "lineframe", "linestep", "lineresult"):
            print(f"{line} => {line_answer(lines, line)}")


main()
