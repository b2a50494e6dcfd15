#!/usr/bin/env python3
"""Brings the repository's own definitions and lemmas to today's spelling: words in snake case.

Run once at the top, after port.py: python3 tools/respell.py [FOLDER]. It turns the names that specs/ and
proofs/ declare, their record fields and cases, and the names that imports give them by 'as'. Names that
Rattle makes (goals and steps), std's names and the functions of src/ stay as they are.
"""
import collections
import glob
import os
import re
import sys

# Any run of letters of a name; a dot, a bracket or a space ends it.
TOKEN = re.compile(r"[^\s(){}\[\],.;:=λ→×⊎|↦\"]+")
DECLARED = re.compile(r"\s*(?:(?:pub|abbrev|unfoldable|record|data)\s+)*([^\s(){}\[\],.;:=]+)(?=\s+[:(])")
GOAL = re.compile(r":\s*(?:goal|given)\.")
IMPORT = re.compile(r"\s*(?:pub |ghost )?use (\S+?)\.\{(.*)\}")
# Names that two things would share in one scope, and names that port.py garbled.
OTHERS = {
    "Before-of": "before_of",
    "Signed-of": "signed_of",
    "Fitted-of": "fitted_of",
    "getD-last": "get_or_last",
    "not-here": "not_here",
}


def antt_files():
    return sorted(glob.glob("crates/*/specs/**/*.antt", recursive=True) + glob.glob("crates/*/proofs/**/*.antt", recursive=True))


def rt_files():
    return sorted(glob.glob("crates/*/src/**/*.rt", recursive=True))


def own_crates():
    return {os.path.basename(folder) for folder in glob.glob("crates/*")}


def is_own(path, own):
    parts = path.split(".")
    return len(parts) > 1 and parts[0] == "Rattle" and parts[1] in own


def lines_of(path):
    with open(path) as file:
        return file.read().split("\n")


def declared_names(own):
    """The dashed names that the repository declares, and those that imports give."""
    names = set()
    for path in antt_files():
        for line in lines_of(path):
            if line.strip().startswith("--"):
                continue
            found = DECLARED.match(line)
            if found and "-" in found.group(1).strip("-") and not GOAL.search(line):
                names.add(found.group(1))
    for path in antt_files() + rt_files():
        for line in lines_of(path):
            found = IMPORT.match(line)
            if found:
                for item in found.group(2).split(","):
                    parts = item.strip().split(" as ")
                    if len(parts) == 2 and "-" in parts[1]:
                        names.add(parts[1])
    return names


def foreign_names(path, own):
    """The dashed names that a file imports from elsewhere."""
    names = set()
    for line in lines_of(path):
        found = IMPORT.match(line)
        if found and not is_own(found.group(1), own):
            for item in found.group(2).split(","):
                for name in item.strip().split(" as "):
                    if "-" in name:
                        names.add(name)
    return names


def new_name(name):
    if name in OTHERS:
        return OTHERS[name]
    return re.sub(r"(?<=[^\s-])-(?=[^\s-])", "_", name).replace("′", "'")


def turn_line(line, names, foreign, functions, is_source):
    """A function of src/ keeps its name; a definition that would share it there is imported as NAME_of."""
    if line.strip().startswith("--") or line.strip().startswith("//"):
        return line

    def turn(found):
        name = found.group(0)
        if name not in names or name in foreign:
            return name
        new = new_name(name)
        if new not in functions:
            return new
        return f"{new} as {new}_of" if IMPORT.match(line) and f"{name} as " not in line else f"{new}_of"

    if is_source:
        pieces = line.split('"')
        return '"'.join(TOKEN.sub(turn, piece) if i % 2 == 0 else piece for i, piece in enumerate(pieces))
    return TOKEN.sub(turn, line)


def main():
    if len(sys.argv) > 1:
        os.chdir(sys.argv[1])
    own = own_crates()
    names = declared_names(own)
    names.update(OTHERS)
    together = collections.defaultdict(set)
    for name in names:
        together[new_name(name)].add(name)
    for new, olds in sorted(together.items()):
        if len(olds) > 1:
            print("two names become one:", new, sorted(olds))
    for path in antt_files() + rt_files():
        foreign = foreign_names(path, own)
        old = lines_of(path)
        tokens = set()
        for line in old:
            tokens.update(TOKEN.findall(line))
        functions = tokens if path.endswith(".rt") else set()
        for name in sorted(names & tokens):
            if name not in foreign and new_name(name) in tokens and not functions:
                print("already there:", path, name, new_name(name))
        new = [turn_line(line, names, foreign, functions, path.endswith(".rt")) for line in old]
        if new != old:
            with open(path, "w") as file:
                file.write("\n".join(new))


main()
