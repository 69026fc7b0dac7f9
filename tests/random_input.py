#!/usr/bin/env python3
"""Feeds random bytes as rule and card to a program, and checks the form of what it prints.

Usage: tests/random_input.py [CASES] [SEED] [PROGRAM], after `rt run` in the program's crate, which is log_to_lines or card_to_lines.
"""
import os
import random
import re
import subprocess
import sys
import tempfile

ROOT = os.path.dirname(os.path.dirname(os.path.abspath(__file__)))
NAME = sys.argv[3] if len(sys.argv) > 3 else "card_to_lines"
PROGRAM = os.path.join(ROOT, "crates", NAME, "out", NAME)
POINT = r"\d+:\d+"
LINE = re.compile(
    rf"({POINT} (true|false|held)|{POINT} = {POINT}|entry \d+ refused (25|26|27)"
    rf"|entry \d+ refused 24 cause \d+ layer \d+)\n"
)
COUNTS = re.compile(r"drawn (\d+) accepted (\d+) turned-away (\d+) held (\d+)\n")


def random_rule(rng):
    """Sometimes noise, mostly a table that may well be allowed."""
    if rng.random() < 0.3:
        return bytes(rng.randrange(256) for _ in range(rng.randrange(200)))
    table = []
    for j in range(rng.randrange(1, 9)):
        kind = rng.randrange(7 if NAME == "log_to_lines" else 9) if j else rng.randrange(2)
        left = rng.randrange(12) if kind == 1 else rng.randrange(max(j, 1)) if kind > 1 else 0
        right = rng.randrange(max(j, 1)) if kind in (3, 4, 6, 8) else 0
        low = rng.randrange(4) if kind > 4 else 0
        high = rng.choice([low, low + 2, 255]) if kind > 4 else 0
        table += [kind, left, right, low, high]
    return bytes(table)


def random_card(rng):
    if rng.random() < 0.3:
        return bytes(rng.randrange(256) for _ in range(rng.randrange(100)))
    card = b""
    stamp = rng.randrange(100)
    for _ in range(rng.randrange(40)):
        stamp = max(0, stamp + rng.choice([0, 0, 0, 1, 1, 2, 5, -1]))
        word = rng.randrange(4096) if rng.random() < 0.95 else rng.randrange(65536)
        card += stamp.to_bytes(4, "little") + word.to_bytes(2, "little")
    return card[: len(card) - rng.choice([0, 0, 0, 1])]


def run(rule, card):
    with tempfile.TemporaryDirectory() as folder:
        if rule is not None:
            with open(os.path.join(folder, "rule.bin"), "wb") as file:
                file.write(rule)
        done = subprocess.run([PROGRAM], input=card, cwd=folder, capture_output=True, timeout=60)
    assert done.returncode == 0, (done.returncode, rule, card)
    return done.stdout.decode("ascii")


def check(rule, card, text):
    if re.fullmatch(r"rule refused [1-579]\n" if NAME == "log_to_lines" else r"rule refused [1-8]\n", text) or text == "log too long\n":
        return "alone"
    lines = text.splitlines(keepends=True)
    counts = COUNTS.fullmatch(lines[-1])
    assert counts, (rule, card, text)
    drawn, accepted, turned, held = map(int, counts.groups())
    assert drawn == accepted + turned == -(-len(card) // 6), (rule, card, text)
    assert all(LINE.fullmatch(line) for line in lines[:-1]), (rule, card, text)
    assert sum(line.startswith("entry") for line in lines) == turned, (rule, card, text)
    return "judged"


def main():
    cases = int(sys.argv[1]) if len(sys.argv) > 1 else 500
    rng = random.Random(int(sys.argv[2]) if len(sys.argv) > 2 else 1)
    seen = {}
    fixed = [(None, b""), (bytes(5), bytes(60_000)), (bytes(5), bytes(60_001)), (bytes(165), b"")]
    for rule, card in fixed + [(random_rule(rng), random_card(rng)) for _ in range(cases)]:
        answer = check(rule, card, run(rule, card))
        seen[answer] = seen.get(answer, 0) + 1
    print(seen)


main()
