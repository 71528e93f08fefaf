#!/usr/bin/env python3
"""Writes crates/samples/proofs/Open.antt: one name that opens every definition, for proofs by computation.

Run it from the repository's root after a definition was added or renamed in one of the crates below.
"""
import re

CRATES = {
    "names": ["Lists", "Names", "Judging"],
    "flat_table": ["Classes", "Table"],
    "recipe": ["Records", "Definitions", "Reaching", "Reading"],
    "tree": ["Tree", "Faults"],
    "marks": ["Marks", "Faults"],
    "compose": ["Rows"],
    "flat_names": ["Prefixes", "Underscores"],
    "composer": ["Flat", "Verdicts", "Printed"],
    "origins": ["Origins"],
    "factors": ["Companion"],
    "sizes": ["Size"],
    "samples": ["Samples", "Walks", "Companions", "Sizes"],
}
# What is defined by a type of the code: no proof by computation meets it.
LEFT_OUT = {"field_of", "optional_of"}
HEAD = """-- One name that opens every definition of the specs: a proof by computation says `unfolding open-specs`.
-- Written by tools/open_specs.py from the specs of all floors. Assumes nothing.
"""


def definitions(crate, module):
    text = open("crates/%s/specs/%s.antt" % (crate, module)).read()
    names = re.findall(r"^\s*unfoldable pub (\S+) (?:\{[^}]*\} )?:", text, re.M)
    return [name for name in names if name not in LEFT_OUT]


opened, imports = [], []
for crate, modules in CRATES.items():
    path = "Rattle.%s.specs" % crate
    for module in modules:
        listed = []
        for name in definitions(crate, module):
            # Two floors may use one name: the upper one's gets a prime.
            listed.append("%s as %s'" % (name, name) if name in opened else name)
            opened.append(name + "'" if name in opened else name)
        imports.append("use %s.%s.{%s}" % (path, module, ", ".join(listed)))

with open("crates/samples/proofs/Open.antt", "w") as file:
    file.write(HEAD + "\n".join(imports) + "\n\nunfoldable pub open-specs : Unit {0}\nunfolding " + " ".join(opened) + "\nopen-specs = tt\n")
print(len(opened), "definitions")
