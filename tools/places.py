#!/usr/bin/env python3
"""Counts the places of docs/DESIGN-PASS.md's eight points by text alone. usage: tools/places.py [ROOT] [-v]
ROOT is a checkout, this one if there is none; -v lists the places. What it finds is read by a person: not every place that it finds has a better form."""

import collections
import glob
import os
import re
import sys

ROOT = next((it for it in sys.argv[1:] if it != "-v"), os.path.join(os.path.dirname(os.path.abspath(__file__)), ".."))
FUNCTION = re.compile(r"^( *)(?:pub )?(?:extern \"C\" )?fn (\w+)(?:<[^>]*>)?\(", re.M)


def texts(pattern):
    for path in sorted(glob.glob(os.path.join(ROOT, "crates", pattern), recursive=True)):
        with open(path, encoding="utf-8") as it:
            yield os.path.relpath(path, os.path.join(ROOT, "crates")), it.read()


def code(text):
    return re.sub(r"//.*", "", text)


def functions():
    """Each function with its head, from `fn` to the body, and its body."""
    for path, text in texts("*/src/**/*.rt"):
        text = code(text)
        for m in FUNCTION.finditer(text):
            body = re.compile(rf"^{m[1]}(?:.*\s)?{{$|^{m[1]}.*{{$", re.M).search(text, m.end() - 1)
            end = re.compile(rf"^{m[1]}}}$", re.M).search(text, m.end())
            first = text.rfind("{", m.start(), text.find("\n", m.start()) + 1)
            start = first if first > 0 and text[first:first + 2] == "{\n" else (body.end() - 1 if body else m.end())
            if end and start < end.start():
                yield path, m[2], text[m.start():start], text[start:end.end()]


def shape(body):
    """A body without names, constants and numbers: what two functions have alike that differ in these alone."""
    body = re.sub(r"\b(?!let\b|mut\b|if\b|else\b|for\b|in\b|while\b|loop\b|match\b|return\b|break\b|true\b|false\b|Ok\b|Err\b|Some\b|None\b|as\b)[A-Za-z_]\w*(::\w+)*", "x", body)
    return re.sub(r"\d+", "0", re.sub(r"\s+", "", body)).replace(",)", ")")


def facts(head):
    asked = re.search(r"requires \{(.*?)\}\s*(?:ensures|$)", head, re.S)
    if asked:
        for fact in re.split(r" × ", asked[1].strip()):
            fact = re.sub(r"^\((.*)\)$", r"\1", fact.strip())
            yield re.sub(r"\b\w+\.(now|old|entry)\b", r"_.\1", fact)


def main():
    found = collections.defaultdict(list)
    for path, text in texts("*/src/**/*.rt"):
        for n, line in enumerate(code(text).split("\n"), 1):
            at = f"{path}:{n}: {line.strip()}"
            if re.match(r" *(pub )?enum ", line):
                found["1 enums"].append(at)
            if re.match(r" *(pub )?struct ", line):
                found["1 structs"].append(at)
            if re.search(r"\bwhile |\bloop \{", line):
                found["3 while and loop"].append(at)
            if re.search(r"\bfor \w+ in \(?(0|1)\.\.", line):
                found["3 for over numbers"].append(at)
            if re.search(r"\b(dyn|fn)\b ?\(|: fn\b", line):
                found["7 tables of functions"].append(at)
        for m in re.finditer(r"struct (\w+)[^{;]*\{([^}]*)\}", code(text)):
            if re.search(r"\b(present|held|done|fits|found|sized|step|outcome)\b", m[2]):
                found["1 structs with a flag or an answer beside a value"].append(f"{path}: {m[1]}")
            if re.search(r": \[", m[2]) and re.search(r"\b(len|count|used)\b", m[2]):
                found["6 structs of an array and a count"].append(f"{path}: {m[1]}")
    alike, asked, pairs = collections.defaultdict(list), collections.defaultdict(list), collections.Counter()
    for path, name, head, body in functions():
        if len(body) > 60:
            alike[shape(body)].append(f"{path}: {name}")
        for fact in set(facts(head)):
            asked[fact].append(f"{path}: {name}")
        names = re.findall(r"(\w+): ", head.split(")")[0])
        pairs.update(zip(names, names[1:]))
        if re.match(r"(compare|copy|put|wide|least|larger|is_less|digit|of|by)_?", name) and not name.startswith("bytes"):
            found["4 functions named for comparing, copying, turning or printing"].append(f"{path}: {name}")
        if re.search(r"\b(list|chars|bytes)\b.*\b(held|count|len)\b", head.split(")")[0]):
            found["6 parameters: a list and its count"].append(f"{path}: {name}")
    found["2 functions that differ in names and constants"] = [" | ".join(it) for it in alike.values() if len(it) > 1]
    found["5 facts asked by three functions or more"] = [f"{len(it)} {fact}" for fact, it in asked.items() if len(it) > 2]
    found["5 pairs of parameters in five functions or more"] = [f"{n} {a}, {b}" for (a, b), n in pairs.items() if n > 4]
    same, lines = collections.defaultdict(list), 0
    for path, text in texts("*/proofs/**/*.antt"):
        lines += text.count("\n")
        if path.endswith("Answers.antt"):
            names = re.sub(r"[\w-]+", "x", re.sub(r"^(use|--).*", "", text, flags=re.M))
            same[re.sub(r"\s+", " ", names)].append(path)
    found["8 files of answers that differ in names"] = [" | ".join(it) for it in same.values() if len(it) > 1]
    for label in sorted(found):
        it = found[label]
        many = sum(1 + row.count(" | ") for row in it)
        print(f"{label}: {many}" + (f" in {len(it)} groups" if many > len(it) else ""))
        if "-v" in sys.argv:
            print("".join(f"    {row}\n" for row in it), end="")
    print(f"8 lines of proofs: {lines}")


main()
