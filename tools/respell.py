#!/usr/bin/env python3
"""Spells the repository's own definitions and lemmas as today's Rattle does. Run once, right after port.py.

usage: tools/respell.py     at the top of the repository

- Words of definitions, lemmas, fields and binders that had humps are in snake case (`wholeOctets`: `whole_octets`), in
  specs/, proofs/ and the clauses of src/. Types and modules keep their humps, and a dash still joins the parts of a name.
- Where a definition and a lemma would then have one name, the lemma keeps the dash that it had before (LEMMAS below).
- The texts of must-fail/*.edit follow: what they look for is the line that now stands in place of the old one, and what
  they put there gets the same spelling. An edit that this can't turn is named, and left to be done by hand.
"""

import os
import re
import sys

# a lemma whose name would fall together with that of a definition
LEMMAS = {
    name: name.replace("_", "-")
    for name in ("answers_of", "taken_out", "same_end", "by_number", "by_key", "written_as", "read_back", "row_fine", "same_length")
}

# humps in strings of the programs, which stay
STRINGS = {"idEntified", "siZe", "eXtension"}

WORD = re.compile(r"(?<![\w'\\-])[a-z][\w']*(?:-[\w']+)*")


def snake(name):
    def part(p):
        p = re.sub(r"([a-z0-9])([A-Z])", r"\1_\2", p)
        p = re.sub(r"([A-Z]+)([A-Z][a-z])", r"\1_\2", p)
        return p.lower()

    return "-".join(part(p) if re.search(r"[a-z0-9][A-Z]", p) and not p[0].isupper() else p for p in name.split("-"))


def respell(text, lemmas):
    def turn(m):
        w = m.group(0)
        if w in STRINGS:
            return w
        if lemmas and w in LEMMAS and text[m.start() - 1 : m.start()] != ".":
            return LEMMAS[w]
        return snake(w) if re.search(r"[a-z0-9][A-Z]", w) else w

    return WORD.sub(turn, text)


def files(root, endings):
    for folder, dirs, names in os.walk(os.path.join(root, "crates")):
        dirs[:] = sorted(d for d in dirs if d != "out")
        for n in sorted(names):
            if n.endswith(endings):
                yield os.path.join(folder, n)


def squeeze(line):
    """A line without what the two spellings write apart from one another."""
    line = respell(line, False)
    line = line.replace("⌜", "").replace("⌝", "").replace("◌", "_")
    line = re.sub(r"\bλ \w+\. ", "", line)
    return re.sub(r"[\s(){}_-]", "", line)


def surface(text, antt):
    """The new text of an edit, in the spelling of the files."""
    text = respell(text, False).replace("′", "'")
    text = re.sub(r"\b(\w+_in \w) \.(?=[a-z])", r"(\1).", text) if antt else text
    text = re.sub(r"(?<=[\w')]) \.(?=[a-z0-9])", ".", text) if antt else text
    text = text.replace("⌜ ", "").replace(" ⌝", "")
    return re.sub(r"(?<![\w_])_([^\w\s]+|[\w-]+)_(?![\w_])", r"◌\1◌", text) if antt else text


def edits(root):
    for path in files(root, (".edit",)):
        with open(path, encoding="utf-8") as f:
            lines = f.read().split("\n")
        crate = os.path.dirname(os.path.dirname(path))
        target, out, left = None, [], False
        for line in lines:
            if line.startswith("file: "):
                target = os.path.join(crate, line[6:].strip())
                with open(target, encoding="utf-8") as f:
                    now = f.read()
                out.append(line)
            elif line.startswith("old: "):
                text = line[5:]
                antt = target.endswith(".antt")
                if now.count(text) != 1:
                    text = surface(text, antt)
                if now.count(text) != 1:
                    text = stands(line[5:], now) or text
                left = left or now.count(text) != 1
                out.append("old: " + text)
            elif line.startswith("new: "):
                out.append("new: " + surface(line[5:], target.endswith(".antt")))
            else:
                out.append(line)
        with open(path, "w", encoding="utf-8") as f:
            f.write("\n".join(out))
        if left:
            print("left:", os.path.relpath(path, root))


def stands(text, now):
    """Today's line that stands for the old one."""
    key = squeeze(text)
    found = [n for n in now.split("\n") if squeeze(n) == key]
    if len(found) == 1:
        return found[0].strip() if not text.startswith(" ") else found[0]
    return None


def main():
    root = os.getcwd()
    n = 0
    for path in files(root, (".rt", ".antt")):
        with open(path, encoding="utf-8") as f:
            text = f.read()
        new = respell(text, path.endswith(".antt"))
        if new != text:
            n += 1
            with open(path, "w", encoding="utf-8") as f:
                f.write(new)
    print(f"respelled {n} files")
    edits(root)


if __name__ == "__main__":
    sys.exit(main())
