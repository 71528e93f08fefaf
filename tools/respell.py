#!/usr/bin/env python3
"""Brings this repository's own definitions and lemmas to today's spelling: words in snake case, a lemma of its function's name with `_lem`.

Run it once at the top, after port.py. Source functions, exported names, inputs and outputs keep their names. It goes by spelling alone.
"""
import glob
import re
import subprocess

# A lemma that has, or would come to have, the name of a definition.
LEMMAS = ["first_below", "is_name", "owner_of", "same_answer", "step_down", "target_below", "walk_refused"]
CAMEL = re.compile(r"(?<![\w·.])[a-z][a-z0-9₀-₉]*(?:[A-Z][a-z0-9₀-₉]*)+(?![\w])")
PATHS = ["crates", "docs", "tools", "README.md", "harness/src", "harness/build.rs", "harness/c", "include", "Makefile"]
KEPT = {"tools/respell.py"}


def snake(name):
    return re.sub("[A-Z]", lambda letter: "_" + letter.group(0).lower(), name.replace("getD", "get_or"))


def texts(*endings):
    listed = subprocess.run(["git", "ls-files", "--"] + PATHS, capture_output=True, text=True, check=True).stdout.split("\n")
    return [path for path in listed if path.endswith(endings) and path not in KEPT]


def rewrite(path, turn):
    with open(path, encoding="utf-8") as file:
        old = file.read()
    new = turn(old)
    if new != old:
        with open(path, "w", encoding="utf-8") as file:
            file.write(new)


# The names that specs and proofs have; a word of a page or of the harness is turned only if it is one of them.
names = set()
for path in glob.glob("crates/*/specs/**/*.antt", recursive=True) + glob.glob("crates/*/proofs/**/*.antt", recursive=True) + glob.glob("crates/*/must-fail/*.edit"):
    with open(path, encoding="utf-8") as file:
        names.update(CAMEL.findall(file.read()))
lemma = re.compile(r"(?<![\w'.·-])(%s)(?![\w'(.-]|::)" % "|".join(LEMMAS))
for path in texts(".antt"):
    rewrite(path, lambda text: lemma.sub(r"\1_lem", text))
word = re.compile(r"(?<![\w'])(?:%s)(?![\w])" % "|".join(sorted(names, key=len, reverse=True)))
for path in texts(".antt", ".rt", ".edit", ".md", ".py", ".sh", ".rs", ".c", ".h", "Makefile"):
    rewrite(path, lambda text: word.sub(lambda found: snake(found.group(0)), text))
print(len(names), "definitions respelled,", len(LEMMAS), "lemmas renamed")
