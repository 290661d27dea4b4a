"""The statements of the theorems that the documents name, as docs/STATEMENTS.md quotes them, for tests/run-docs.

A statement is quoted with what it stands under, the heads of its modules, which may assume something. Where it speaks of a
definition that stands among proofs, and not among what is believed, that definition is quoted too, and what it speaks of in turn:
so a premise cannot come in by another name, and a theorem cannot be emptied without a change of the page."""
import glob
import os
import re

from contracts import ROOT, imported, text

# A word of a statement, as a name, without the marks that may stand around it.
WORD = re.compile(r"[^\s(){}\[\],;]+")


# The files whose theorems are what is promised of the calls: a table has to name each.
OF_CALLS = ("Demand.antt", "Trips.antt", "Runs.antt", "Returns.antt")


class Item:
    """A declaration of a file of proofs: its name, its text up to its proof, the heads of the modules that it stands in, and
    whether it is a definition, which is quoted whole."""
    def __init__(self, path, name, lines, heads, defines):
        self.path, self.name, self.lines, self.heads, self.defines = path, name, lines, heads, defines

    def quoted(self):
        shown = self.heads + self.lines
        return "\n".join(line.rstrip() for line in shown)

    def words(self):
        found = {word for line in self.heads + self.lines for word in WORD.findall(line)}
        # Of a field the name whose field it is.
        return found | {word.partition(".")[0] for word in found}


def indent(line):
    return len(line) - len(line.lstrip(" "))


def joined(lines):
    """Groups a file's lines: each line with those behind it that stand further in, comments and imports left out."""
    for line in lines:
        if line.strip() and not line.lstrip().startswith("--") and not re.match(r"\s*(pub )?(use|mod) ", line):
            yield line


def items(path):
    """The declarations of a file, in order."""
    found, heads, lines = [], [], list(joined(text(path).splitlines()))
    place = 0
    while place < len(lines):
        line = lines[place]
        depth = indent(line)
        heads = [head for head in heads if indent(head[0]) < depth]
        block = [line]
        place += 1
        if re.match(r"\s*(pub )?module ", line):
            while not block[-1].rstrip().endswith(" where"):
                block.append(lines[place])
                place += 1
            heads = heads + [block]
            continue
        while place < len(lines) and indent(lines[place]) > depth:
            block.append(lines[place])
            place += 1
        over = [part for head in heads for part in head]
        kind = re.match(r"\s*((?:unfoldable |abbrev |pub )*)(?:(record|data) )?(\S+)", line)
        name = kind.group(3)
        if name == "unfolding":
            continue
        signed = re.match(r"\s*(?:unfoldable |abbrev |pub )*\S+ :(?:\s|$)", line)
        if kind.group(2):
            found.append(Item(path, name, block, over, True))
        elif signed:
            found.append(Item(path, name, block, over, "abbrev" in kind.group(1) or "unfoldable" in kind.group(1)))
        elif found and found[-1].name == name and found[-1].defines:
            found[-1].lines += block
    return found


def named(paths):
    """Name and file of each theorem that a row of a table names in a document, as | `a`, `b` | code/proofs/Demand | .. |."""
    pairs = []
    for path in paths:
        for names, where in re.findall(r"^\| (`[^|]*`) \| ([a-z_]+/proofs/[A-Z]\w*) \|", text(path), re.MULTILINE):
            pairs += [("crates/%s.antt" % where, name) for name in re.findall(r"`([^`]+)`", names)]
    return list(dict.fromkeys(pairs))


class Library:
    """The declarations of all files of proofs, and where a name of a file comes from."""
    def __init__(self):
        self.files = {}
        self.names = {}
        for path in sorted(glob.glob("crates/*/proofs/*.antt", root_dir=ROOT)):
            self.files[path] = {}
            for item in items(path):
                self.files[path].setdefault(item.name, item)
            self.names[path] = imported(path)

    def stands(self, path, word):
        """The definition among proofs that a word of a file is, if it is one."""
        item = self.files[path].get(word)
        if item is None:
            module = re.fullmatch(r"Rattle\.(\w+)\.proofs\.(\w+)\.(\S+)", self.names[path].get(word, ""))
            if module and "crates/%s/proofs/%s.antt" % module.group(1, 2) in self.files:
                item = self.files["crates/%s/proofs/%s.antt" % module.group(1, 2)].get(module.group(3))
        return item if item and item.defines else None

    def spoken_of(self, first):
        """The definitions among proofs that the items speak of, and that these speak of."""
        found, left = {}, list(first)
        while left:
            item = left.pop()
            for word in sorted(item.words()):
                other = self.stands(item.path, word)
                if other and (other.path, other.name) not in found and other is not item:
                    found[other.path, other.name] = other
                    left.append(other)
        return [found[key] for key in sorted(found)]


def unnamed(library, known):
    """The theorems of the calls that no table names."""
    for path, declared in library.files.items():
        if os.path.basename(path) in OF_CALLS:
            for item in declared.values():
                if item.lines[0].lstrip().startswith("pub ") and not item.defines and (path, item.name) not in known:
                    yield "%s: no table names the theorem %s" % (path, item.name)


def quotation(paths):
    """What docs/STATEMENTS.md quotes, and the faults: theorems that are named and not there, and those that no table names."""
    library, lines, theorems = Library(), [], []
    faults = list(unnamed(library, named(paths)))
    for path, name in named(paths):
        item = library.files.get(path, {}).get(name)
        if item is None:
            faults.append("%s: no theorem %s" % (path, name))
        else:
            theorems.append(item)
    for item in theorems:
        lines += ["### %s, %s" % (item.name, item.path[len("crates/"):-len(".antt")]), "", "```", item.quoted(), "```", ""]
    lines += ["## Definitions among proofs that they speak of", ""]
    for item in library.spoken_of(theorems):
        lines += ["%s, %s:" % (item.name, item.path[len("crates/"):-len(".antt")]), "", "```", item.quoted(), "```", ""]
    return "\n".join(lines), faults
