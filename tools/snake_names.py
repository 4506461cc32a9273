#!/usr/bin/env python3
"""Spells the repository's own definitions and lemmas in snake case, in .rt and .antt files and in must-fail edits.

Run once, at the top of the repository. A name is the repository's own if a file of specs/ or proofs/ declares it:
by a signature, as a field or a constructor, or as a local name after `let`. Names that the check makes (goals, steps
and fields of `c`) and names of the library keep their dashes. With --list it only prints what it would change, and
the names that would fall together with others.
"""
import pathlib
import re
import sys

NAME = r"[A-Za-z][A-Za-z0-9_']*(?:-[A-Za-z0-9_']+)+"
WORD = re.compile(r"(?<![\w'\-])" + NAME + r"(?![\w'\-])")
DECLARED = re.compile(r"^\s*(?:(?:pub|abbrev|unfoldable|data|record)\s+)*(" + NAME + r")\s*(?:\{[^}]*\}\s*)?:(.*)$")
LOCAL = re.compile(r"\blet\s+(" + NAME + r")(?![\w'\-])")
# what the check makes: never the repository's own, whatever declares it
MADE = re.compile(r"^(returns|loop|in|if|then|else|invariant|decreases|bounds|overflow|match|slice|drop|from-residual)(-|$)|-requires(-|$)")


def sources(top):
    for part in ("specs", "proofs", "src"):
        for ending in ("antt", "rt"):
            yield from sorted(top.glob(f"crates/*/{part}/**/*.{ending}"))
    yield from sorted(top.glob("crates/*/must-fail/*.edit"))


def own(top):
    names = set()
    for path in sources(top):
        if path.suffix != ".antt":
            continue
        for line in path.read_text().splitlines():
            found = DECLARED.match(line)
            if found and not found.group(2).strip().startswith("goal."):
                names.add(found.group(1))
            names.update(LOCAL.findall(line))
    return names


def main():
    top = pathlib.Path(".")
    names = own(top)
    turn = {n: n.replace("-", "_") for n in names}
    if "--list" in sys.argv:
        words = set()
        for path in sources(top):
            words.update(re.findall(r"[A-Za-z][A-Za-z0-9_']*", path.read_text()))
        for n in sorted(turn):
            print(n, "-> stands already:" if turn[n] in words else "->", turn[n], "(made by the check?)" if MADE.search(n) else "")
        return
    for path in sources(top):
        text = path.read_text()
        turned = WORD.sub(lambda m: turn.get(m.group(0), m.group(0)), text)
        if turned != text:
            path.write_text(turned)


main()
