#!/usr/bin/env python3
"""Respells this repository's own definitions and lemmas in snake case, once, after the kit's port.py.

usage: python3 tools/snake_names.py [ROOT]     renames in ROOT's crates (default: the folder above tools/)
       python3 tools/snake_names.py --list [ROOT]   says only which names it would turn, and into what

A name is turned where a file of specs/ or proofs/ declares it, begins with a small letter, and has a dash, a capital or a prime.
So is a clause's name in src/ that has a capital. Goals (`name : goal.name`) keep the names that Rattle gives them, types and modules keep their capitals, and text in quotes stays.
"""
import os
import re
import sys

SIGNATURE = re.compile(r"^[ \t]*(?:(?:abbrev|unfoldable|pub|ruleset) )*([^\s:(){}.,;]+) :(?=\s)(.*)$", re.M)
LETTER = r"[^\s(){}\[\].,;:\"|@]"
LABEL = re.compile(r"\b(?:ensures|requires) ([a-z]+[A-Z]\w*) \{")
# a lemma of its function's name
LEMMAS = {"top-code": "top_code_lem", "every-read": "every_read_lem"}
KEEP = re.compile(r"^(returns|loop|overflow|invariant|decreases|bounds|slice_bounds|nonzero)\b")


def snake(name):
    name = name.replace("·", "_").replace("′", "'")
    name = re.sub(r"(?<=[a-z0-9])(?=[A-ZℕℤΑ-Ω])", "_", name)
    name = re.sub(r"-+", "_", name)
    return re.sub(r"_+", "_", name).lower().replace("ℕ".lower(), "ℕ")


def files(root):
    for folder, dirs, names in os.walk(os.path.join(root, "crates")):
        dirs[:] = sorted(d for d in dirs if d not in ("out", "target", ".git"))
        for name in sorted(names):
            if name.endswith((".antt", ".rt")):
                yield os.path.join(folder, name)


def declared(root):
    own, other = set(), set()
    for path in files(root):
        text = open(path, encoding="utf-8").read()
        if not path.endswith(".antt"):
            own.update(LABEL.findall(text))
            continue
        for name, rest in SIGNATURE.findall(text):
            if re.match(r"\s*(goal|need|given)\.", rest):
                other.add(name)
            else:
                own.add(name)
    return own, other


def renames(root):
    own, goals = declared(root)
    turned = {}
    for name in sorted(own - goals):
        if name[0].isalpha() and not name[0].isupper() and not KEEP.match(name) and snake(name) != name:
            turned[name] = LEMMAS.get(name, snake(name))
    seen = {}
    for old, new in turned.items():
        seen.setdefault(new, []).append(old)
    for new, olds in seen.items():
        if len(olds) > 1 or new in own:
            print(f"falls together: {' '.join(olds)} -> {new}{' (declared already)' if new in own else ''}", file=sys.stderr)
    return turned


def main():
    words = sys.argv[1:]
    only_list = words[:1] == ["--list"]
    if only_list:
        words = words[1:]
    root = words[0] if words else os.path.join(os.path.dirname(os.path.abspath(__file__)), "..")
    turned = renames(root)
    if only_list:
        for old, new in turned.items():
            print(old, new)
        return
    pattern = re.compile("(?<!" + LETTER + ")(?:" + "|".join(re.escape(n) for n in sorted(turned, key=len, reverse=True)) + ")(?!" + LETTER + ")")
    quoted = re.compile(r'("(?:[^"\\\n]|\\.)*")')
    for path in files(root):
        text = open(path, encoding="utf-8").read()
        parts = quoted.split(text)
        for i in range(0, len(parts), 2):
            parts[i] = pattern.sub(lambda m: turned[m.group(0)], parts[i])
        new = "".join(parts)
        if new != text:
            open(path, "w", encoding="utf-8").write(new)


main()
