#!/usr/bin/env python3
"""Brings the names of definitions, lemmas and their parts to one spelling: words in snake case, facts and records in camel case.

usage: tools/respell.py [--list]      at the top of the repository; --list prints the names and where two would fall together

A name that begins with a capital letter loses its dashes (Same-desk: SameDesk), any other is written in snake case
(blockBytes: block_bytes, start-push: start_push). Names that Rattle makes of the code (goals, steps, their fields) stay, as do
the functions, types and fields of src/, comments and strings.
"""
import collections
import glob
import re
import sys

# A name of antt: no blank, bracket, separator or backquote stands in it.
NAME = re.compile(r"[^\s(){}\[\];,.:`\"|⟦⟧<>&*]+")
SIGNATURE = re.compile(r"^\s*(?:(?:abbrev|unfoldable|pub|data|record|let)\s+)*([^\s(){};,.:]+)(?:\s*[({].*|\s*):\s")
LET = re.compile(r"\blet\s+([^\s(){};,.:]+)\s*[:=]")
ALIAS = re.compile(r"\bas\s+([^\s(){};,.:]+)\s*[,}]")
PLAIN = re.compile(r"[A-Za-z][A-Za-z0-9_'-]*")
# Goals, and the steps and fields of a goal, that Rattle names after the code.
MADE = re.compile(r"^(in_ok|in_err|in_default|in|if|loop|then|else|returns|overflow_\w+|bounds|slice_bounds|nonzero_\w+|invariant|invariant_of|decreases|ghost|ghosts|field|index|residual|from|not)-")


# Names of our own that look like steps.
OWN = ("not-told", "then-closed")
# Two names that would fall together: the one here is set apart.
APART = {
    "first-refused": "first_refused_push",
    "packs-left": "left_packs",
    "quadlets-left": "left_quadlets",
    "raw-bytes": "bytes_of_raw",
    "time-of": "time_told",
    "trailer-bytes": "trailer_bytes_back",
}


def spelled(name):
    if name in APART:
        return APART[name]
    if name[0].isupper():
        return "".join(part[0].upper() + part[1:] for part in name.split("-"))
    return re.sub(r"(?<=[a-z0-9])([A-Z])", lambda m: "_" + m.group(1).lower(), name.replace("-", "_"))


def files(kind):
    return sorted(glob.glob(f"crates/*/specs/**/*.{kind}", recursive=True) + glob.glob(f"crates/*/proofs/**/*.{kind}", recursive=True))


def is_answer(path):
    return path.rsplit("/", 1)[1] in ("Answers.antt", "Invariants.antt", "Proof.antt")


def declared():
    """The repository's own names, and what they are spelled as."""
    names = set()
    for path in files("antt"):
        with open(path, encoding="utf-8") as file:
            for line in file:
                code = line.split("--", 1)[0] if line.lstrip().startswith("--") else line
                for found in LET.findall(code) + (ALIAS.findall(code) if code.startswith("use ") else []):
                    names.add(found)
                match = SIGNATURE.match(code)
                if match and not code.startswith("use ") and "goal." not in code:
                    names.add(match.group(1))
    for path in sorted(glob.glob("crates/*/src/**/*.rt", recursive=True)):
        with open(path, encoding="utf-8") as file:
            for line in file:
                if line.lstrip().startswith("ghost use "):
                    names.update(ALIAS.findall(line))
    return {n: spelled(n) for n in sorted(names) if PLAIN.fullmatch(n) and spelled(n) != n}


def turned(line, names, made):
    """A line of a proof, a definition or a clause; made: whether the line may cite names that Rattle makes."""

    def word(match):
        name = match.group(0)
        if name not in names:
            return name
        before = line[: match.start()]
        if made and name not in OWN and (before.endswith("goal.") or MADE.match(name)):
            return name
        return names[name]

    return NAME.sub(word, line)


def pieces(path):
    """Each line of a file, with whether it is code."""
    with open(path, encoding="utf-8") as file:
        lines = file.readlines()
    mark = "--" if path.endswith(".antt") else "//"
    return [(line, not line.lstrip().startswith(mark)) for line in lines]


def main():
    names = declared()
    clashes = collections.defaultdict(list)
    back = collections.defaultdict(list)
    for name, to in names.items():
        back[to].append(name)
    for to, found in back.items():
        if len(found) > 1:
            clashes[to].append("of " + " and ".join(found))
    texts = {}
    for path in files("antt") + sorted(glob.glob("crates/*/src/**/*.rt", recursive=True)):
        rows = pieces(path)
        held = {n for line, code in rows if code for n in NAME.findall(line)}
        if path.endswith(".rt"):
            held = {n for line, code in rows if code and re.match(r"\s*(ghost|requires|ensures)\b", line) for n in NAME.findall(line)}
        for name in held & set(names):
            if names[name] in held:
                clashes[names[name]].append(f"{name} in {path}")
        texts[path] = "".join(turned(line, names, is_answer(path)) if code else line for line, code in rows)
    for path in sorted(glob.glob("docs/*.md") + glob.glob("*.md")):
        with open(path, encoding="utf-8") as file:
            text = file.read()
        texts[path] = re.sub(r"`([^`\s]+)`", lambda m: "`" + names.get(m.group(1), m.group(1)) + "`", text)
    if "--list" in sys.argv[1:]:
        for name, to in names.items():
            print(name, to)
        for to, where in sorted(clashes.items()):
            print("falls together:", to, "; ".join(where))
        return
    for path, text in texts.items():
        with open(path, "w", encoding="utf-8") as file:
            file.write(text)


main()
