"""Wrong builds: what a file .edit says, as `rt must-fail` reads it too.

Its first line tells what is wrong. A line `file:` names a file of the crate for the pairs `old:` and `new:` behind it, each of
which replaces a text that stands there once. Any other line is passed over."""
import glob
import os

ROOT = os.path.dirname(os.path.dirname(os.path.abspath(__file__)))
# The wrong builds that the documents name, which `rt ci` tries, and all others, which tools/wrong tries.
NAMED, OTHERS = "must-fail", "wrong"
# What of a crate is proved, and so what an edit may change.
FOLDERS = ("src", "specs", "proofs")


class Broken(Exception):
    """An edit that cannot be tried, and why."""


def text(path):
    with open(path, encoding="utf-8") as file:
        return file.read()


def files(kind, crates="*"):
    """The edits of a kind, of one crate or of all."""
    return sorted(glob.glob(os.path.join(ROOT, "crates", crates, kind, "*.edit")))


def pairs(edit):
    """File, old and new text of each replacement."""
    path = old = None
    for line in text(edit).splitlines():
        if line.startswith("file: "):
            path = line[6:]
        elif line.startswith("old: "):
            old = line[5:]
        elif line.startswith("new:"):
            yield path, old, line[4:].removeprefix(" ")
            old = None


def applied(edit, crate):
    """The texts of the changed files of a crate's folder by their paths, all replacements made."""
    texts, before = {}, {}
    for path, old, new in pairs(edit):
        if not path or path.split("/")[0] not in FOLDERS or ".." in path.split("/"):
            raise Broken("it names no file of %s" % ", ".join(FOLDERS))
        if path not in texts:
            if not os.path.isfile(os.path.join(crate, path)):
                raise Broken("no file %s" % path)
            texts[path] = before[path] = text(os.path.join(crate, path))
        times = texts[path].count(old) if old else 0
        if times != 1:
            raise Broken("stands %d times in %s: %s" % (times, path, old))
        texts[path] = texts[path].replace(old, new)
    if not texts:
        raise Broken("it replaces nothing")
    if texts == before:
        raise Broken("it changes nothing")
    return texts
