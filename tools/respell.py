#!/usr/bin/env python3
"""Brings the names of definitions and lemmas to the spelling of today's Rattle: words of a name are in snake case, so `readReply`
becomes `read_reply` and `witOf-lt` `wit_of-lt`. It goes over the files of crates/ and over the pages that speak of them, once; a name
of the toolchain's library stays.
usage: tools/respell.py"""
import glob
import os
import re
import sys

ROOT = os.path.dirname(os.path.dirname(os.path.abspath(__file__)))
WORD = re.compile(r"(?<![\w'-])[a-z][\w'-]*")
CAMEL = re.compile(r"([a-z0-9])([A-Z])")
# Names of the library that some proofs cite.
LIBRARY = {"room_Sc", "reads_Sc", "s_Typed"}
# Lemmas whose names fall together with those of the definitions that they are on, as these are spelled now.
LEMMAS = {name: name + "_lem" for name in ("field_told", "none_said", "off_list", "read_as", "row_told")}
PAGES = ("README.md", "docs/**/*.md")
SOURCES = ("crates/**/*.antt", "crates/**/*.rt", "crates/**/*.edit")


def files(patterns):
    found = [path for pattern in patterns for path in glob.glob(os.path.join(ROOT, pattern), recursive=True)]
    return sorted(path for path in found if "/out/" not in path)


def text(path):
    with open(path, encoding="utf-8") as file:
        return file.read()


def spelled(name):
    return CAMEL.sub(lambda joint: "%s_%s" % (joint.group(1), joint.group(2).lower()), name)


def is_camel(name):
    return name not in LIBRARY and "_" not in name and CAMEL.search(name) is not None


def main():
    proofs = files(("crates/**/*.antt",))
    names = {name for path in proofs for name in WORD.findall(text(path)) if is_camel(name)}
    words = {name: spelled(name) for name in names} | LEMMAS
    for path in files(SOURCES + PAGES):
        before = text(path)
        after = WORD.sub(lambda found: words.get(found.group(), found.group()), before)
        if after != before:
            with open(path, "w", encoding="utf-8") as file:
                file.write(after)
    print("%d names" % len(names))


if __name__ == "__main__":
    sys.exit(main())
