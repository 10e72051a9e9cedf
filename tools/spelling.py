#!/usr/bin/env python3
"""Gives the repository's own definitions and lemmas the spelling of today's library: words in snake case, types in camel case.

usage: python3 tools/spelling.py        at the top of the repository, once, right after the kit's own script

A name is own if a file of specs/ or proofs/ declares it: a definition, a lemma, a record, a field, a constructor. Goals, and
the steps that a goal's record names, are the prover's and stay. Comments and strings stay as they are. Prints each name that it
turns, and stops, with nothing changed, where two names would become one.
"""

import os
import re
import sys

NAME = r"[^\s(){}\[\].,;:=λ\"]+"
DECLARED = re.compile(rf"^\s*(?:abbrev |unfoldable |let )?(?:pub )?(?:data |record )?({NAME})\s[^=]*?:\s(.*)$")
ALIAS = re.compile(rf" as ({NAME})")

# Names that would fall together with one of the library's, or that say the old word for one of its operations.
OWN_WORDS = {
    "Not": "not_of",
    "bit-and": "and_as_bits",
    "bit-or": "or_as_bits",
    "bit-xor": "xor_as_bits",
    "Round-trip": "RoundTrips",
    "steps-counted": "steps_are_counted",
    "getD-push-default": "get_or_push_default",
    "getD-map-default": "get_or_map_default",
    "getD-one-or-none": "get_or_one_or_none",
}

# Names that a function of src/ has too: it stands in a module of its own, so nothing falls together.
ALSO_FUNCTIONS = {"most-steps", "most-total", "read-steps", "lines-mean", "part-holds"}


def files(suffix):
    for folder, dirs, names in os.walk("crates"):
        dirs[:] = sorted(d for d in dirs if d != "out")
        for name in sorted(names):
            if name.endswith(suffix):
                yield os.path.join(folder, name)


def spelled(name, is_constructor):
    if name in OWN_WORDS:
        return OWN_WORDS[name]
    if name[0].isupper() and not is_constructor:
        return "".join(part[0].upper() + part[1:] for part in name.split("-"))
    return name.replace("-", "_").lower() if is_constructor else name.replace("-", "_")


def own_names():
    """The new spelling of each name that is declared here and changes."""
    turned = {}
    for path in files(".antt"):
        in_data = False
        for line in open(path, encoding="utf-8"):
            line = line.rstrip("\n")
            if line and not line[0].isspace():
                in_data = bool(re.match(r"(?:pub )?data ", line))
            if line.startswith("use "):
                for name in ALIAS.findall(line):
                    if "-" in name:
                        turned[name] = spelled(name, False)
                continue
            if line.startswith("--") or not line.strip():
                continue
            found = DECLARED.match(line)
            if not found or re.match(r"goal ?\.", found.group(2)):
                continue
            name = found.group(1)
            is_constructor = in_data and line[0].isspace()
            if "-" in name.strip("-") or name in OWN_WORDS:
                turned[name] = spelled(name, is_constructor)
    return turned


def parts(text, comment):
    """The text in pieces, with whether each is code: comments and strings are not."""
    at = 0
    for found in re.finditer(rf"{comment}[^\n]*|\"(?:\\.|[^\"\\\n])*\"", text):
        yield text[at:found.start()], True
        yield found.group(0), False
        at = found.end()
    yield text[at:], True


def turn(path, turned, comment):
    text = open(path, encoding="utf-8").read()
    word = re.compile(r"(?<![\w'\-])(" + "|".join(re.escape(n) for n in sorted(turned, key=len, reverse=True)) + r")(?![\w'\-])")

    def new(found):
        before = found.string[:found.start()]
        if re.search(r"\bgoal\.$", before):
            return found.group(0)
        return turned[found.group(1)]

    out = "".join(word.sub(new, piece) if is_code else piece for piece, is_code in parts(text, comment))
    if out != text:
        with open(path, "w", encoding="utf-8") as file:
            file.write(out)
    return out != text


def words_in_use():
    used = set()
    for path in list(files(".antt")) + list(files(".rt")):
        text = open(path, encoding="utf-8").read()
        for piece, is_code in parts(text, "--" if path.endswith(".antt") else "//"):
            if is_code:
                used |= set(re.findall(r"[\w'\-₀-₉]+", piece))
    return used


def main():
    turned = own_names()
    used = words_in_use()
    together = [(n, t) for n, t in turned.items() if t in used and n not in ALSO_FUNCTIONS]
    twice = {t for t in turned.values() if list(turned.values()).count(t) > 1}
    for name, to in sorted(turned.items()):
        print(f"{name} -> {to}")
    for name, to in together:
        print(f"spelling: {name} would fall together with {to}, which stands already", file=sys.stderr)
    for to in sorted(twice):
        print(f"spelling: two names would become {to}", file=sys.stderr)
    if together or twice:
        raise SystemExit(1)
    changed = [p for p in files(".antt") if turn(p, turned, "--")] + [p for p in files(".rt") if turn(p, turned, "//")]
    print(f"spelling: {len(turned)} names, {len(changed)} files")


main()
