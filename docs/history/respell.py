#!/usr/bin/env python3
"""Brings the definitions and lemmas of specs/ and proofs/ to one spelling: words in snake case, types in camel case.

usage: respell.py [ROOT] [--list]

A name of several words joined by dashes becomes snake case (`page-count`: `page_count`) where it begins with a small
letter, and camel case (`Led-to`: `LedTo`) where it begins with a capital. A dash stays in a lemma of proofs/ whose two
parts are names of functions, as `length-take`. Names that the checker makes for goals and steps keep their dashes, and
so do names of the code, comments and strings. It stops where two names would fall together.
"""
import re
import sys
from pathlib import Path

WORD = r"[A-Za-z0-9_'≢≡≤⊎ℕ]"
FULL = rf"{WORD}[A-Za-z0-9_'≢≡≤⊎ℕ-]*"
NAME = re.compile(rf"(?<![A-Za-z0-9_'≢≡≤⊎ℕ◌-]){WORD}+(?:-{WORD}+)+(?![A-Za-z0-9_'◌-])")
# one or more names, then a colon: a definition, a field or a constructor
DEFINED = re.compile(rf"^\s*(?:abbrev |unfoldable |pub |opaque )*({FULL}(?: {FULL})*) (?:\{{.*\}} |\(.*\) )*:(?: |$)")
FUNCTION = re.compile(rf"^\s*(?:pub )?(?:abbrev|unfoldable) (?:pub )?({FULL}) ")
TYPED = re.compile(rf"^\s*(?:pub |abbrev |unfoldable )*(?:data|record) ({FULL})")
# functions of the library whose lemmas are called LEFT-RIGHT
KNOWN = set("length take drop append map filter reverse replicate set get_or sum remove".split())

# files that answer goals: what follows `c.` or `w.` there is a name that the checker made
GOALS = ("Answers.antt", "Invariants.antt", "Proof.antt", "Choices.antt")


def code_parts(text, line_comment):
    """The text in pieces: (is code, piece)."""
    out, i, n = [], 0, len(text)
    start = 0
    while i < n:
        if text.startswith(line_comment, i) and (i == 0 or text[i - 1] in " \n\t({;"):
            end = text.find("\n", i)
            end = n if end < 0 else end
            out.append((True, text[start:i]))
            out.append((False, text[i:end]))
            i = start = end
        elif text[i] == '"':
            end = i + 1
            while end < n and text[end] != '"':
                end += 2 if text[end] == "\\" else 1
            end = min(n, end + 1)
            out.append((True, text[start:i]))
            out.append((False, text[i:end]))
            i = start = end
        else:
            i += 1
    out.append((True, text[start:]))
    return out


def spell(name, functions, is_lemma):
    parts = name.split("-")
    if name[0].isupper():
        return "".join(p[:1].upper() + p[1:] for p in parts)
    for cut in range(1, len(parts)):
        left, right = "_".join(parts[:cut]), "_".join(parts[cut:])
        if is_lemma and left in functions and right in functions:
            return left + "-" + right
    return "_".join(parts)


def main():
    words = [w for w in sys.argv[1:] if not w.startswith("--")]
    root = Path(words[0] if words else ".")
    antt = [p for p in sorted(root.glob("crates/*/*/**/*.antt")) if "out" not in p.parts]
    code = sorted(root.glob("crates/*/src/**/*.rt"))
    texts = {p: p.read_text(encoding="utf-8") for p in antt + code}
    defined, in_specs, functions = set(), set(), set(KNOWN)
    for p in antt:
        of_specs = "/specs/" in str(p)
        goals = not of_specs and p.name in GOALS
        for line in texts[p].split("\n"):
            if line.lstrip().startswith("--"):
                continue
            found = []
            t = TYPED.match(line)
            if t:
                found.append(t.group(1))
            m = DEFINED.match(line)
            if m and not (goals and re.search(r": (goal|need|choice)\.", line)):
                found += [n for n in m.group(1).split(" ") if n not in ("pub", "abbrev", "unfoldable", "data", "record")]
            f = FUNCTION.match(line)
            if f and of_specs:
                functions.add(f.group(1).replace("-", "_"))
            defined.update(found)
            if of_specs:
                in_specs.update(found)
    spelt = {n: spell(n, functions, n not in in_specs) for n in sorted(defined) if "-" in n}
    spelt = {a: b for a, b in spelt.items() if a != b}
    everything = set(re.findall(rf"{WORD}+", "\n".join(texts.values())))
    clash = [(a, b) for a, b in spelt.items() if b in defined]
    twice = {}
    for a, b in spelt.items():
        twice.setdefault(b, []).append(a)
    clash += [(" ".join(v), k) for k, v in twice.items() if len(v) > 1]
    if "--list" in sys.argv:
        for a, b in spelt.items():
            note = " (also a local name, or a name of the code)" if b in everything and b not in defined else ""
            print(a, b + note)
    for a, b in clash:
        print("these fall together:", a, b)
    if clash or "--list" in sys.argv:
        return 1 if clash else 0

    changed = 0
    for p, text in texts.items():
        made = re.compile(r"\b(?:c|w|goal|need|choice)\.$") if p.name in GOALS else re.compile(r"\b(?:goal|need|choice)\.$")

        def turn(m):
            if made.search(m.string[: m.start()]):
                return m.group(0)
            return spelt.get(m.group(0), m.group(0))
        mark = "//" if p.suffix == ".rt" else "--"
        new = "".join(NAME.sub(turn, piece) if is_code else piece for is_code, piece in code_parts(text, mark))
        if new != text:
            p.write_text(new, encoding="utf-8")
            changed += 1
    print(f"{len(spelt)} names respelt in {changed} files")
    return 0


sys.exit(main())
