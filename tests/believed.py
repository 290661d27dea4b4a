"""Which definitions of crates/code/specs something public speaks of, for tests/run-docs.

What stands there has to be believed, so each has to be reached: from the contract of a public call or of `fieldlist`, or from the
statement of a theorem that docs/STATEMENTS.md quotes, by way of whatever definitions stand between."""
import glob
import re

from contracts import ROOT, imported, text
from statements import WORD, Library, items, named

BELIEVED = "crates/code/specs/"
# What is promised to those who use it: the calls, and the program.
PUBLIC = ("crates/gorvlime/src/*.rt", "crates/gorvlime_c/src/*.rt", "crates/fieldlist/src/*.rt")


def constructors(item):
    """The names that a data type brings with it."""
    if not re.match(r"\s*pub data ", item.lines[0]):
        return []
    return re.findall(r"^\s+(?:pub )?(\S+) :", "\n".join(item.lines[1:]), re.MULTILINE)


def aliases(path):
    """The modules that a file takes whole, by the names that it gives them."""
    found = re.findall(r"^(?:ghost )?use (\S+) as (\w+);?$", text(path), re.MULTILINE)
    return {alias: module for module, alias in found}


class Names:
    """The definitions of all specs and proofs, and what the words of a file mean."""
    def __init__(self):
        self.files = {}
        for path in sorted(glob.glob("crates/*/specs/*.antt", root_dir=ROOT) + glob.glob("crates/*/proofs/*.antt", root_dir=ROOT)):
            self.files[path] = {}
            for item in items(path):
                for name in [item.name] + constructors(item):
                    self.files[path].setdefault(name, item)
        self.origins = {}

    def origin(self, path):
        if path not in self.origins:
            self.origins[path] = (imported(path), aliases(path))
        return self.origins[path]

    def meant(self, path, word):
        """The definition that a word of a file is, if it is one of ours."""
        word = word.strip("◌.")
        own = self.files.get(path, {}).get(word)
        if own:
            return own
        names, modules = self.origin(path)
        place = names.get(word, "")
        head, dot, tail = word.partition(".")
        if not place and dot and head in modules:
            place = modules[head] + "." + tail
        found = re.fullmatch(r"Rattle\.(\w+)\.(specs|proofs)\.(\w+)\.(\S+)", place)
        return self.files.get("crates/%s/%s/%s.antt" % found.group(1, 2, 3), {}).get(found.group(4)) if found else None


def roots(names, documents):
    """What the public contracts and the quoted statements speak of."""
    for pattern in PUBLIC:
        for path in glob.glob(pattern, root_dir=ROOT):
            for contract in re.findall(r"^    (?:requires|ensures)\b.*?(?=^    (?:requires|ensures)\b|^\{)", text(path), re.MULTILINE | re.DOTALL):
                for word in WORD.findall(contract):
                    yield names.meant(path, word)
    library = Library()
    for path, name in named(documents):
        item = library.files.get(path, {}).get(name)
        for word in item.words() if item else []:
            yield names.meant(path, word)


def unreached(documents):
    """The definitions of the rules that nothing public speaks of."""
    names = Names()
    seen, left = set(), [item for item in roots(names, documents) if item]
    while left:
        item = left.pop()
        if id(item) not in seen:
            seen.add(id(item))
            left += [other for other in (names.meant(item.path, word) for word in item.words()) if other and other.defines]
    for path, declared in sorted(names.files.items()):
        if path.startswith(BELIEVED):
            for name, item in declared.items():
                if name == item.name and id(item) not in seen:
                    yield "%s: nothing public speaks of %s" % (path, name)
