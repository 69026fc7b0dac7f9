#!/usr/bin/env python3
"""Judges random cards by random rules, and compares with what the program prints.

Usage: tests/evaluate.py [--looking-back] [--program PATH] [--cases N] [--seed S]
       tests/evaluate.py --self-test

Two checks, both written from docs/ alone:

1. The lines. The whole output is worked out here and must be the same, byte for byte. Nothing is carried from draw to
   draw as the watch does it: at each draw the value of every component at every point is worked out anew, for each
   setting of the waits after the newest point.
2. The definition of truth. Each verdict and each joining of two points is held against the table in docs/LOGIC.md, read
   on the accepted points followed by a long random continuation. This check knows no waits and no conditions.

The program is card_to_lines. With --looking-back it is log_to_lines, which judges by the instant watch and refuses rules
that look ahead. `rt run` in the program's crate proves and builds it.

The first disagreement is printed with its rule and card, and the exit code is 1.
"""
import argparse
import os
import random
import subprocess
import sys
import tempfile

ROOT = os.path.dirname(os.path.dirname(os.path.abspath(__file__)))
PROGRAM = os.path.join(ROOT, "crates", "card_to_lines", "out", "card_to_lines")
LOOKING_BACK = os.path.join(ROOT, "crates", "log_to_lines", "out", "log_to_lines")

TRUE, LETTER, NOT, AND, OR, PREVIOUS, SINCE, NEXT, UNTIL = range(9)
NO_END = 255
SLOTS = 128
MOST_WAITS = 10
MOST_COMPONENTS = 64
MOST_BYTES = 60_000
MOST_OFFSETS = 65_536
TOP_STAMP = 2**32 - 1
# Does the program refuse rules that look ahead?
looking_back = False


# The rule table.


def records_of(rule):
    return [tuple(rule[k : k + 5]) for k in range(0, len(rule), 5)]


def shifts(record):
    """The shifts of a record; each is a component."""
    kind, _, _, low, high = record
    if kind not in (SINCE, UNTIL):
        return range(1)
    return range((low if high == NO_END else high) + 1)


def component_count(records):
    return sum(len(shifts(record)) for record in records)


def wait_count(records):
    return sum(len(shifts(record)) for record in records if record[0] in (NEXT, UNTIL))


def refusal(rule):
    """The number of the first question that the rule fails, or None."""
    if not 5 <= len(rule) <= 160 or len(rule) % 5:
        return 1
    records = records_of(rule)
    for place, (kind, left, right, low, high) in enumerate(records):
        if kind > 8:
            return 2
        if kind >= 2 and left >= place:
            return 3
        if kind in (AND, OR, SINCE, UNTIL) and right >= place:
            return 3
        if kind == TRUE and left != 0:
            return 4
        if kind == LETTER and left > 11:
            return 4
        if kind not in (AND, OR, SINCE, UNTIL) and right != 0:
            return 4
        if kind < PREVIOUS and (low, high) != (0, 0):
            return 4
        if kind >= PREVIOUS and not (low <= 20 and (low <= high <= 20 or high == NO_END)):
            return 5
    if looking_back and any(record[0] in (NEXT, UNTIL) for record in records):
        return 9
    if wait_count(records) > MOST_WAITS:
        return 6
    if component_count(records) > MOST_COMPONENTS:
        return 7
    return None


# The card.


def entries_of(card):
    """Each entry is ("sample", stamp, word) or ("spoiled", cause)."""
    entries = []
    for k in range(0, len(card), 6):
        piece = card[k : k + 6]
        if len(piece) < 6:
            entries.append(("spoiled", 2))
            continue
        stamp, word = int.from_bytes(piece[:4], "little"), int.from_bytes(piece[4:], "little")
        entries.append(("spoiled", 1) if word >> 12 else ("sample", stamp, word))
    return entries


def card_of(samples):
    return b"".join(stamp.to_bytes(4, "little") + word.to_bytes(2, "little") for stamp, word in samples)


# Check 1: the lines.


def in_interval(difference, low, high):
    return low <= difference and (high == NO_END or difference <= high)


def moved(shift, gap, low, high):
    """The shift after the gap, or None if it is expired."""
    if high == NO_END:
        return min(shift + gap, low)
    return shift + gap if shift + gap <= high else None


class Conditions:
    """The values of all components at all points, for every setting of the waits after the newest point.

    Settings are numbered; in setting k, wait w is bit w of k. A value is an integer whose bit k says whether the
    component is true at the point in setting k. Truth at one setting is a plain yes or no, so and, or and not of values
    are those of their bits.
    """

    def __init__(self, records):
        self.records = records
        waits = [(r, s) for r, record in enumerate(records) if record[0] in (NEXT, UNTIL) for s in shifts(record)]
        settings = range(2 ** len(waits))
        self.always = sum(1 << k for k in settings)
        self.wait = {name: sum(1 << k for k in settings if k >> w & 1) for w, name in enumerate(waits)}
        self.points = []
        self.settled = 0  # so many points, the first ones, have no value that hangs on a wait
        self.at = {(r, s): [] for r, record in enumerate(records) for s in shifts(record)}

    def extended(self, point):
        """The conditions when this point has come; self stays as it is."""
        after = Conditions.__new__(Conditions)
        after.records, after.always, after.wait = self.records, self.always, self.wait
        after.points = self.points + [point]
        # Where every component has one value in all settings, no later point alters it: the work begins after those.
        start = self.settled
        after.at = {name: values[:start] for name, values in self.at.items()}
        for r in range(len(self.records)):
            after.work_out(r, start)
        while start < len(after.points) and all(values[start] in (0, self.always) for values in after.at.values()):
            start += 1
        after.settled = start
        return after

    def work_out(self, r, start):
        """The values of record r from that point on; those of earlier records are there."""
        kind, left, right, low, high = self.records[r]
        points = self.points
        newest = len(points) - 1
        at = self.at
        if kind in (NEXT, UNTIL):
            # These look at the point after, so they are worked out from the newest point backwards.
            for s in shifts(self.records[r]):
                at[r, s] += [None] * (newest + 1 - start)
            for i in range(newest, start - 1, -1):
                for s in shifts(self.records[r]):
                    if i == newest:
                        wait = self.wait[r, s]
                    elif kind == NEXT:
                        fits = in_interval(points[i + 1][0] - points[i][0], low, high)
                        wait = at[left, 0][i + 1] if fits else 0
                    else:
                        to = moved(s, points[i + 1][0] - points[i][0], low, high)
                        wait = 0 if to is None else at[r, to][i + 1]
                    if kind == NEXT:
                        at[r, s][i] = wait
                    else:
                        now = at[right, 0][i] if low - s <= 0 else 0
                        at[r, s][i] = now | (at[left, 0][i] & wait)
            return
        for i in range(start, newest + 1):
            gap = points[i][0] - points[i - 1][0] if i else None
            for s in shifts(self.records[r]):
                if kind == TRUE:
                    value = self.always
                elif kind == LETTER:
                    value = self.always if points[i][1] >> left & 1 else 0
                elif kind == NOT:
                    value = self.always & ~at[left, 0][i]
                elif kind == AND:
                    value = at[left, 0][i] & at[right, 0][i]
                elif kind == OR:
                    value = at[left, 0][i] | at[right, 0][i]
                elif kind == PREVIOUS:
                    value = at[left, 0][i - 1] if i and in_interval(gap, low, high) else 0
                else:
                    value = at[right, 0][i] if low - s <= 0 else 0
                    to = moved(s, gap, low, high) if i else None
                    if to is not None:
                        value |= at[left, 0][i] & at[r, to][i - 1]
                at[r, s].append(value)


def expected(rule, card):
    """What the program prints."""
    number = refusal(rule)
    if number is not None:
        return f"rule refused {number}\n"
    if len(card) > MOST_BYTES:
        return "log too long\n"
    conditions = Conditions(records_of(rule))
    top = len(conditions.records) - 1
    names = []  # of all points
    held = []  # numbers of points, earliest first
    lines = []
    turned = 0
    for place, entry in enumerate(entries_of(card)):
        points = conditions.points
        if entry[0] == "spoiled":
            lines.append(f"entry {place} refused 24 cause {entry[1]} layer 0")
            turned += 1
            continue
        stamp, word = entry[1:]
        if points and stamp < points[-1][0]:
            lines.append(f"entry {place} refused 25")
            turned += 1
            continue
        offset = 0
        while offset < len(points) and points[-1 - offset][0] == stamp:
            offset += 1
        if offset == MOST_OFFSETS:
            lines.append(f"entry {place} refused 26")
            turned += 1
            continue
        after = conditions.extended((stamp, word))
        name = f"{stamp}:{offset}"
        told, still = [], []
        for i in held + [len(points)]:
            this = names[i] if i < len(names) else name
            value = after.at[top, 0][i]
            same = [j for j in still if after.at[top, 0][j] == value]
            if value == after.always:
                told.append(f"{this} true")
            elif value == 0:
                told.append(f"{this} false")
            elif same:
                told.append(f"{this} = {names[same[0]]}")
            else:
                still.append(i)
        if len(still) > SLOTS:
            lines.append(f"entry {place} refused 27")
            turned += 1
            continue
        conditions, held = after, still
        names.append(name)
        lines += told
    lines += [f"{names[i]} held" for i in held]
    accepted = len(names)
    lines.append(f"drawn {accepted + turned} accepted {accepted} turned-away {turned} held {len(held)}")
    return "".join(line + "\n" for line in lines)


# Check 2: the definition of truth, on a stream whose points are known only up to an end. The values are True, False,
# and None for what the points beyond the end may still decide.


def both(a, b):
    if a is False or b is False:
        return False
    return None if a is None or b is None else True


def either(a, b):
    if a is True or b is True:
        return True
    return None if a is None or b is None else False


def truth(records, points):
    """For each record, its value at each point."""
    table = []
    last = points[-1][0] if points else 0
    for kind, left, right, low, high in records:
        row = []
        for i, (stamp, word) in enumerate(points):
            if kind == TRUE:
                value = True
            elif kind == LETTER:
                value = bool(word >> left & 1)
            elif kind == NOT:
                value = table[left][i]
                value = None if value is None else not value
            elif kind == AND:
                value = both(table[left][i], table[right][i])
            elif kind == OR:
                value = either(table[left][i], table[right][i])
            elif kind == PREVIOUS:
                fits = i > 0 and in_interval(stamp - points[i - 1][0], low, high)
                value = table[left][i - 1] if fits else False
            elif kind == NEXT:
                if i + 1 == len(points):
                    value = None
                else:
                    value = table[left][i + 1] if in_interval(points[i + 1][0] - stamp, low, high) else False
            elif kind == SINCE:
                value, way = False, True  # way: left at every point between j and i, i included
                for j in range(i, -1, -1):
                    if in_interval(stamp - points[j][0], low, high):
                        value = either(value, both(way, table[right][j]))
                    way = both(way, table[left][j])
                    if value is True or way is False:
                        break
            else:
                value, way = False, True  # way: left at every point from i on that is before j
                for j in range(i, len(points)):
                    if in_interval(points[j][0] - stamp, low, high):
                        value = either(value, both(way, table[right][j]))
                    way = both(way, table[left][j])
                    if value is True or way is False:
                        break
                beyond = None if high == NO_END or last - stamp <= high else False
                value = either(value, both(way, beyond))
            row.append(value)
        table.append(row)
    return table


def continuation(rng, records, newest):
    """Points after the newest stamp, beyond all that the finite intervals reach."""
    reach = sum(high for kind, _, _, _, high in records if kind in (NEXT, UNTIL) and high != NO_END)
    chance = rng.choice([0.05, 0.3, 0.5, 0.7, 0.95])
    gaps = rng.choice([[0, 0, 0, 1], [0, 1, 1, 2], [0, 1, 2, 3, 5], [1], [4, 9, 21]])
    stamp, points = newest, []
    while stamp <= newest + reach or len(points) < 30:
        stamp += rng.choice(gaps) if len(points) < 60 else rng.choice([1, 5, 21])
        points.append((stamp, random_word(rng, chance)))
    return points


def against_definition(rng, rule, card, text, counts, times=3):
    """None if no line is against the definition, else what is wrong."""
    lines = text.splitlines()
    if len(lines) == 1 and not lines[0].startswith("drawn"):
        return None
    records = records_of(rule)
    refused = {int(line.split()[1]) for line in lines if line.startswith("entry ")}
    points = [entry[1:] for place, entry in enumerate(entries_of(card)) if place not in refused]
    numbers, offsets = {}, {}
    for i, (stamp, _) in enumerate(points):
        numbers[f"{stamp}:{offsets.get(stamp, 0)}"] = i
        offsets[stamp] = offsets.get(stamp, 0) + 1
    for _ in range(times if points else 0):
        more = continuation(rng, records, points[-1][0])
        value = truth(records, points + more)[-1]
        for line in lines:
            words = line.split()
            if words[0] not in numbers or words[1] == "held":
                continue
            this = value[numbers[words[0]]]
            other = value[numbers[words[2]]] if words[1] == "=" else words[1] == "true"
            count(counts, "compared with the definition")
            if this is None or other is None:
                count(counts, "of these not determined")
            elif this != other:
                return f"{line!r} is against the definition, if these points follow: {more}"
    return None


# Random rules and cards.


def random_word(rng, chance):
    return sum(1 << k for k in range(12) if rng.random() < chance)


def random_interval(rng, most):
    """An interval whose shifts go at most up to that one."""
    if rng.random() < 0.2:
        return rng.randint(0, min(most, 3)), NO_END
    high = rng.randint(0, min(most, rng.choice([0, 1, 2, 3, 5, 20])))
    return rng.randint(0, high), high


def looks_ahead(records):
    """Whether a future operator is in the rule, that is, beneath the last record."""
    ahead = []
    for kind, left, right, _, _ in records:
        uses = [left] * (kind >= NOT) + [right] * (kind in (AND, OR, SINCE, UNTIL))
        ahead.append(kind in (NEXT, UNTIL) or any(ahead[use] for use in uses))
    return ahead[-1]


def allowed_rule(rng, waits=MOST_WAITS, components=MOST_COMPONENTS):
    """A table that passes; with higher limits it may fail only the questions 6 and 7. Most look ahead."""
    wanted = rng.random() < (0 if looking_back else 0.85)
    while True:
        records = allowed_records(rng, waits, components)
        if looks_ahead(records) or not wanted:
            return bytes(byte for record in records for byte in record)


def allowed_records(rng, waits, components):
    size = rng.choice([1, 2, 3, 4, 5, 6, 7, 8, 9, 10, 12, 16, 24, 32])
    letters = rng.choice([1, 2, 2, 3, 3, 4, 12])
    future = rng.choice([0, 0, 0, 0, 1] if looking_back else [0, 1, 1, 2, 3])
    basic = rng.randint(1, 3)
    records = []
    for place in range(size):
        waits_left = waits - wait_count(records)
        # Each record still to come, this one too, needs one component.
        components_left = components - component_count(records) - (size - place - 1)
        if place < basic:
            kind = rng.choice([TRUE, LETTER, LETTER, LETTER])
        else:
            kinds = [TRUE, LETTER, LETTER, NOT, NOT, AND, AND, OR, OR, PREVIOUS, PREVIOUS, SINCE, SINCE]
            kind = rng.choice(kinds + [NEXT, UNTIL, UNTIL] * future if waits_left > 0 else kinds)
        left = right = low = high = 0
        if kind == LETTER:
            left = rng.randrange(letters)
        elif kind >= NOT:
            left, right = (max(rng.randrange(place), rng.choice([0, rng.randrange(place)])) for _ in range(2))
            right = right if kind in (AND, OR, SINCE, UNTIL) else 0
        if kind == UNTIL:
            low, high = random_interval(rng, min(20, waits_left - 1, components_left - 1))
        elif kind == SINCE:
            low, high = random_interval(rng, min(20, components_left - 1))
        elif kind in (PREVIOUS, NEXT):
            low, high = random_interval(rng, 20)
        records.append((kind, left, right, low, high))
    return records


def crowded_rule(rng):
    """A rule with many different conditions at a time, so that the slots may run out.

    Letter 0 is what seven untils wait for; letters 1 to 7 choose some of them, letter 8 changes how they are joined.
    """
    chosen, joined = rng.choice([(AND, OR), (OR, AND)])
    wide = rng.sample(range(7), 3)
    records = [(TRUE, 0, 0, 0, 0), (LETTER, 0, 0, 0, 0)]
    chain = None
    for k in range(7):
        place = len(records)
        high = rng.randint(0, 1) if k in wide else 0
        records += [(LETTER, k + 1, 0, 0, 0), (UNTIL, 0, 1, 0, high), (chosen, place, place + 1, 0, 0)]
        if chain is not None:
            records.append((joined, chain, place + 2, 0, 0))
        chain = len(records) - 1
    place = len(records)
    records += [(LETTER, 8, 0, 0, 0), (joined, place, 3, 0, 0), (chosen, chain, place + 1, 0, 0)]
    return bytes(byte for record in records for byte in record)


def random_rule(rng):
    choice = rng.random()
    if choice < 0.04:
        return bytes(rng.randrange(256) for _ in range(rng.randrange(200)))
    if choice < 0.06:
        return bytes(5 * rng.choice([0, 1, 31, 32, 33, 52]) + rng.choice([0, 0, 1, 4]))
    if choice < 0.12:
        # Many of these have a few waits or components too many, or just not.
        records = records_of(allowed_rule(rng, rng.choice([10, 10, 11, 12, 40])))
        enough = rng.randint(60, 68)
        while component_count(records) < enough and len(records) < 32:
            high = min(20, enough - component_count(records) - 1)
            left, right = rng.randrange(len(records)), rng.randrange(len(records))
            records.append((SINCE, left, right, rng.randint(0, high), high))
        return bytes(byte for record in records for byte in record)
    rule = bytearray(allowed_rule(rng))
    if choice < 0.2:
        # One byte is changed, most often by little.
        place = rng.randrange(len(rule))
        rule[place] = rng.choice([0, 1, 9, 12, 20, 21, 254, 255, (rule[place] + 1) % 256, rng.randrange(256)])
    elif choice < 0.22:
        # An argument names its own record, or a later one.
        place = rng.randrange(len(rule) // 5)
        rule[5 * place + rng.randint(1, 2)] = place + rng.randrange(2)
    elif choice < 0.24:
        rule = rule[: rng.randrange(len(rule) + 1)]
    return bytes(rule)


def random_card(rng):
    choice = rng.random()
    if choice < 0.03:
        return bytes(rng.randrange(256) for _ in range(rng.randrange(100)))
    size = rng.randrange(120) if choice < 0.1 else rng.randrange(40)
    chance = rng.choice([0.05, 0.2, 0.5, 0.5, 0.8, 0.95])
    steps = rng.choice([[0, 0, 0, 0, 1], [0, 1], [0, 0, 1, 1, 2, 3], [1, 2, 5], [0, 7, 20, 21], [0, 1, 1000000]])
    stamp = rng.choice([0, 10, rng.randrange(10**6), rng.randrange(TOP_STAMP), TOP_STAMP - rng.randrange(30)])
    samples = []
    for _ in range(size):
        stamp = min(TOP_STAMP, stamp + rng.choice(steps))
        told = max(0, stamp - rng.choice([1, 2, 300])) if rng.random() < 0.04 else stamp
        word = random_word(rng, chance)
        if rng.random() < 0.03:
            word |= 1 << rng.randrange(12, 16)
        samples.append((told, word))
    card = card_of(samples)
    return card[: len(card) - rng.choice([0, 0, 0, 0, 0, 1, 2, 3, 4, 5])] if card else card


def crowded_card(rng):
    words = list(range(256))
    rng.shuffle(words)
    samples = [(50, 2 * word) for word in words[: rng.choice([100, 170, 256])]]
    for _ in range(rng.randrange(60)):
        samples.append((51, 2 * rng.randrange(256)))
    for stamp in rng.choice([[], [51], [52, 52, 53]]):
        samples.append((stamp, rng.randrange(512)))
    return card_of(samples)


def fixed_cases():
    until = bytes([0, 0, 0, 0, 0, 1, 0, 0, 0, 0, 8, 0, 1, 0, 1])
    growing = card_of([(2 * k // 3, k % 7 == 0) for k in range(10_000)])
    return [
        (b"", b""),
        (bytes(5), b""),
        (bytes(5), bytes(MOST_BYTES)),
        (bytes(5), bytes(MOST_BYTES + 1)),
        (b"", bytes(MOST_BYTES + 1)),
        (until, growing),
        (until, growing + b"\0"),
    ]


FIXED = fixed_cases()


def case(rng, number):
    if number < len(FIXED):
        return FIXED[number]
    if rng.random() < 0.01 or number == len(FIXED):
        return crowded_rule(rng), crowded_card(rng)
    return random_rule(rng), random_card(rng)


# Running.


def run(program, rule, card):
    with tempfile.TemporaryDirectory() as folder:
        with open(os.path.join(folder, "rule.bin"), "wb") as file:
            file.write(rule)
        done = subprocess.run([program], input=card, cwd=folder, capture_output=True, timeout=600)
    text = done.stdout.decode("ascii", "backslashreplace")
    if done.returncode:
        text += f"(exit code {done.returncode}) {done.stderr.decode('ascii', 'backslashreplace')}"
    return text


def count(counts, name):
    counts[name] = counts.get(name, 0) + 1


def count_lines(counts, text):
    for line in text.splitlines():
        words = line.split()
        if words[0] == "entry":
            count(counts, f"entries refused {words[3]}")
        elif words[0] in ("rule", "log"):
            count(counts, line)
        elif words[0] == "drawn":
            count(counts, "cards judged")
        else:
            count(counts, f"points {words[1]}")


def stop(title, rule, card, outputs):
    print(title)
    print("rule:", " | ".join(" ".join(map(str, rule[k : k + 5])) for k in range(0, len(rule), 5)))
    print("rule in hexadecimal:", rule.hex())
    entries = entries_of(card)
    print("card:", " ".join(str(entry[1:]) if entry[0] == "sample" else f"spoiled {entry[1]}" for entry in entries))
    print("card in hexadecimal:", card.hex())
    for name, text in outputs:
        print(f"--- {name}")
        print(text, end="")
    sys.exit(1)


def summary(cases, counts):
    print(f"{cases} cases, no disagreement")
    for name in sorted(counts):
        print(f"{counts[name]:9} {name}")


def compare(program, cases, seed):
    counts = {}
    for number in range(cases):
        rng = random.Random(f"{seed} {number}")
        rule, card = case(rng, number)
        wanted = expected(rule, card)
        text = wanted if program is None else run(program, rule, card)
        outputs = [("the program", text), ("this evaluator", wanted)]
        if text != wanted:
            stop(f"case {number} of seed {seed}: the lines are not the same", rule, card, outputs)
        wrong = against_definition(rng, rule, card, text, counts)
        if wrong:
            stop(f"case {number} of seed {seed}: {wrong}", rule, card, outputs)
        count_lines(counts, text)
    summary(cases, counts)


# Worked runs: the rule, the samples, and the lines.
EVENTUALLY = [(0, 0, 0, 0, 0), (1, 0, 0, 0, 0), (8, 0, 1, 0, 1)]
WORKED = [
    (
        EVENTUALLY,
        [(10, 0), (10, 0), (11, 0), (11, 1), (9, 0), (13, 0)],
        ["10:1 = 10:0", "10:0 true", "11:0 true", "11:1 true", "entry 4 refused 25", "13:0 held"]
        + ["drawn 6 accepted 5 turned-away 1 held 1"],
    ),
    (
        EVENTUALLY,
        [(10, 0), (12, 0)],
        ["10:0 false", "12:0 held", "drawn 2 accepted 2 turned-away 0 held 1"],
    ),
    (
        [(0, 0, 0, 0, 0), (1, 0, 0, 0, 0), (8, 0, 1, 0, 255)],
        [(0, 0), (5, 0), (9, 0)],
        ["5:0 = 0:0", "9:0 = 0:0", "0:0 held", "drawn 3 accepted 3 turned-away 0 held 1"],
    ),
    (
        [(1, 0, 0, 0, 0), (7, 0, 0, 1, 1)],
        [(7, 0), (7, 1), (8, 1)],
        ["7:0 false", "7:1 true", "8:0 held", "drawn 3 accepted 3 turned-away 0 held 1"],
    ),
    (
        [(1, 0, 0, 0, 0), (1, 1, 0, 0, 0), (6, 0, 1, 1, 2)],
        [(3, 2), (4, 1), (6, 1)],
        ["3:0 false", "4:0 true", "6:0 false", "drawn 3 accepted 3 turned-away 0 held 0"],
    ),
    (
        [(0, 0, 0, 0, 0)],
        [(1, 4096), (2, 0)],
        ["entry 0 refused 24 cause 1 layer 0", "2:0 true", "drawn 2 accepted 1 turned-away 1 held 0"],
    ),
]
# Rules, and the question that each fails.
FAILING = [
    ([], 1),
    ([(0, 0, 0, 0, 0)] * 33, 1),
    ([(9, 0, 0, 0, 0)], 2),
    ([(2, 0, 0, 0, 0)], 3),
    ([(0, 0, 0, 0, 0), (3, 0, 1, 0, 0)], 3),
    ([(1, 12, 0, 0, 0)], 4),
    ([(0, 0, 0, 0, 1), (9, 0, 0, 0, 0)], 4),
    ([(0, 0, 0, 0, 0), (2, 0, 1, 0, 0)], 4),
    ([(0, 0, 0, 0, 0), (7, 0, 0, 3, 2)], 5),
    ([(0, 0, 0, 0, 0), (6, 0, 0, 21, 255)], 5),
    ([(0, 0, 0, 0, 0), (5, 0, 0, 0, 21)], 5),
    ([(0, 0, 0, 0, 0), (8, 0, 0, 0, 10)], 6),
    ([(0, 0, 0, 0, 0)] + [(6, 0, 0, 0, 20)] * 4 + [(8, 0, 0, 10, 255)], 6),
    ([(0, 0, 0, 0, 0)] + [(6, 0, 0, 0, 20)] * 3 + [(2, 0, 0, 0, 0)], 7),
    ([(0, 0, 0, 0, 0)] + [(6, 0, 0, 0, 20)] * 3, None),
    ([(0, 0, 0, 0, 0), (8, 0, 0, 0, 9)], None),
    ([(0, 0, 0, 0, 0)] * 32, None),
]


def self_test(cases, seed):
    """The worked runs; then the lines worked out here are held against the definition, without the program."""
    for records, samples, lines in WORKED:
        rule, card = bytes(byte for record in records for byte in record), card_of(samples)
        wanted = "".join(line + "\n" for line in lines)
        text = expected(rule, card)
        outputs = [("worked", wanted), ("this evaluator", text)]
        if text != wanted:
            stop("a worked run is not the same", rule, card, outputs)
        wrong = against_definition(random.Random(seed), rule, card, text, {}, times=100)
        if wrong:
            stop(wrong, rule, card, outputs)
    for records, number in FAILING:
        rule = bytes(byte for record in records for byte in record)
        if refusal(rule) != number:
            stop("a rule has another refusal", rule, b"", [("worked", f"{number}\n"), ("here", f"{refusal(rule)}\n")])
    short = "0:0 true\nentry 1 refused 24 cause 2 layer 0\ndrawn 2 accepted 1 turned-away 1 held 0\n"
    if expected(bytes(5), bytes(8)) != short:
        stop("a short record is not told", bytes(5), bytes(8), [("worked", short)])
    print(f"{len(WORKED)} worked runs and {len(FAILING)} fittings are as they should be")
    compare(None, cases, seed)


def main():
    global looking_back
    parser = argparse.ArgumentParser(description="Compares the program with an evaluator of its own.")
    parser.add_argument("--program", help="the program to be run")
    parser.add_argument("--cases", type=int, default=500)
    parser.add_argument("--seed", type=int, default=1)
    parser.add_argument("--self-test", action="store_true", help="run the worked runs, without the program")
    parser.add_argument("--looking-back", action="store_true", help="the program refuses rules that look ahead")
    options = parser.parse_args()
    if options.self_test and options.looking_back:
        parser.error("the worked runs look ahead: --self-test goes without --looking-back")
    looking_back = options.looking_back
    program = options.program or (LOOKING_BACK if looking_back else PROGRAM)
    if options.self_test:
        self_test(options.cases, options.seed)
    else:
        compare(os.path.abspath(program), options.cases, options.seed)


main()
