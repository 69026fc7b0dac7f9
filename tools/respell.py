#!/usr/bin/env python3
"""Respells the definitions, record fields and lemmas that this repository declares in specs/ and proofs/.

usage: python3 tools/respell.py [--dry] [--force]      at the top, once, after /opt/rattle/port/port.py

Words get snake case, types camel case: `wait-count` becomes `wait_count`, `Sound-from` becomes `SoundFrom`. A name is respelled
where it is declared and where it is named: in specs/, proofs/, src/ (lines without a string), must-fail edits, and between backticks in
comments and pages. Names that a file takes from the library, goals, and the code's own names stay. Names that would fall together are
printed, and then nothing is written, but with --force."""

import glob
import re
import sys

# names that snake case would make the same as a word of the library, or whose parts are operators
OTHERS = {
    "bit-and": "bit_of_and",
    "bit-or": "bit_of_or",
    "bit_not": "bit_of_not",
    "atShift": "at_shift_or",
    "lines-in-++": "lines_in_append",
    "printed-++": "printed_append",
    "refused-in-++": "refused_in_append",
    "turned-places-++": "turned_places_append",
}

PART = r"[^\s(){}\[\],;.`\"⌜⌝←]+"
TOKEN = re.compile(PART)
DECLARED = re.compile(r"^\s*(?:(?:abbrev|unfoldable|pub|record|data)\s+)*(" + PART + r")((?:\s+[({].*)?)\s*:(?!:)(.*)$")
FROM = re.compile(r"^\s*(?:ghost )?(?:pub )?use\s+([^\s{;]+?)\.?\{([^}]*)\}")


def target(name):
    if name in OTHERS:
        return OTHERS[name]
    if not re.fullmatch(r"[A-Za-z][A-Za-z0-9_'\-]*", name):
        return name
    if name[0].isupper():
        return "".join(w[:1].upper() + w[1:] for w in name.split("-"))
    return re.sub(r"(?<=[a-z])([A-Z])(?=[a-z])", lambda m: "_" + m[1].lower(), name).replace("-", "_")


def declared_in(text):
    """The names that a file of specs/ or proofs/ declares, without its answers to goals."""
    found = set()
    for line in text.splitlines():
        if line.lstrip().startswith("--"):
            continue
        m = DECLARED.match(line)
        if not m or m[1] in ("use", "mod", "module", "pub") or "=" in m[2]:
            continue
        if re.match(r"\s*(goal|need|given)\.", m[3]):
            continue
        found.add(m[1])
    return found


def taken_from_library(text, own):
    names = set()
    for line in text.splitlines():
        m = FROM.match(line)
        if m and not re.match(r"Rattle\.(" + "|".join(own) + r")\.", m[1] + "."):
            names |= {w.split(" as ")[-1].strip() for w in m[2].split(",")}
    return names


def respelled(text, names, keep):
    def turn(m):
        w = m[0]
        return names[w] if w in names and w not in keep else w
    return TOKEN.sub(turn, text)


def by_backticks(text, names):
    return re.sub(r"`[^`\n]*`", lambda m: respelled(m[0], names, ()), text)


def antt(text, names, keep):
    out = []
    for line in text.splitlines(keepends=True):
        code, dash, note = (line, "", "") if not re.search(r"(^|\s)--(\s|$)", line) else re.split(r"((?:^|(?<=\s))--(?=\s|$))", line, maxsplit=1)
        parts = re.split(r'("[^"\n]*")', code)
        out.append("".join(p if p.startswith('"') else respelled(p, names, keep) for p in parts) + dash + by_backticks(note, names))
    return "".join(out)


def rt(text, names, keep):
    out = []
    for line in text.splitlines(keepends=True):
        if line.lstrip().startswith("//"):
            out.append(by_backticks(line, names))
        elif re.search(r'"', line):
            out.append(line)
        else:
            out.append(respelled(line, names, keep))
    return "".join(out)


def main():
    own = sorted({p.split("/")[1] for p in glob.glob("crates/*/src")})
    ours = sorted(glob.glob("crates/*/specs/**/*.antt", recursive=True) + glob.glob("crates/*/proofs/**/*.antt", recursive=True))
    code = sorted(glob.glob("crates/*/src/**/*.rt", recursive=True))
    texts = {p: open(p, encoding="utf-8").read() for p in ours + code}
    declared = set()
    for p in ours:
        declared |= declared_in(texts[p])
    names = {n: target(n) for n in declared if target(n) != n}
    clashes = []
    back = {}
    for n, t in sorted(names.items()):
        if t in back:
            clashes.append(f"{n} and {back[t]} both become {t}")
        back[t] = n
    for p in ours + code:
        keep = taken_from_library(texts[p], own)
        words = set(TOKEN.findall(texts[p]))
        for n in sorted(words & set(names)):
            if n in keep:
                print(f"kept as the library's: {n} in {p}")
            elif names[n] in keep or (names[n] in declared and names[n] in words):
                clashes.append(f"{n} becomes {names[n]}, which stands in {p} already")
    print(f"{len(names)} names")
    for c in clashes:
        print("clash: " + c)
    if "--dry" in sys.argv:
        return 0
    if clashes and "--force" not in sys.argv:
        return 1
    for p in ours:
        new = antt(texts[p], names, taken_from_library(texts[p], own))
        if new != texts[p]:
            open(p, "w", encoding="utf-8").write(new)
    for p in code:
        new = rt(texts[p], names, taken_from_library(texts[p], own))
        if new != texts[p]:
            open(p, "w", encoding="utf-8").write(new)
    for p in sorted(glob.glob("crates/*/must-fail/*.edit")):
        text = open(p, encoding="utf-8").read()
        new = respelled(text, {n: t for n, t in names.items() if "-" in n}, ())
        if new != text:
            print(f"an edit names a definition: {p}")
            open(p, "w", encoding="utf-8").write(new)
    for p in sorted(glob.glob("*.md") + glob.glob("docs/*.md")):
        text = open(p, encoding="utf-8").read()
        new = by_backticks(text, names)
        if new != text:
            open(p, "w", encoding="utf-8").write(new)
    return 0


if __name__ == "__main__":
    raise SystemExit(main())
