"""The contracts of the public calls, and the theorems that they leave no choice, for tests/run-docs.

A public call is a public function of crate gorvlime, or of gorvlime_c for C. Its contract has no `requires`, one equation for the
answer and one for what each slice that it may change holds after it, and none of them speaks of answer or exit on its right side. A theorem `unique..`
of a file proofs/Unique is about a contract when it says of all inputs, two answers and two contents left that they are the
same where the contract's equations hold of both: nothing more is assumed, nothing less concluded. Variables may have other
names; all other names come from the same place, also where one imports a name from a page of the toolchain's that passes it on.
So neither can be weakened without the other, whatever the documents quote."""
import functools
import glob
import os
import re
import subprocess

ROOT = os.path.dirname(os.path.dirname(os.path.abspath(__file__)))
ANSWER = "result"
# What holds of a parameter before a call and after it, and of one that is only read.
BEFORE, AFTER, LENT = "old", "new", "now"


class Odd(Exception):
    """A text that is not of the form looked for, or two that do not fit, and why."""


def text(path):
    with open(os.path.join(ROOT, path), encoding="utf-8") as file:
        return file.read()


def sources():
    return [path for crate in ("gorvlime", "gorvlime_c")
            for path in sorted(glob.glob("crates/%s/src/**/*.rt" % crate, root_dir=ROOT, recursive=True))]


def proofs():
    return sorted(path for folder in ("specs", "proofs") for path in glob.glob("crates/*/%s/*.antt" % folder, root_dir=ROOT))


@functools.lru_cache(maxsize=None)
def kit():
    """The folder of the toolchain's own definitions."""
    return os.path.join(os.path.dirname(subprocess.run(["rt", "doc"], capture_output=True, text=True, check=True).stdout.strip()), "rattle")


def uses(source):
    """Module, name and alias of each name that a file imports, or passes on."""
    for module, listed in re.findall(r"^(?:ghost |pub )?use (\S+)\.\{([^}]*)\}", source, re.MULTILINE):
        for name in listed.split(","):
            name, _, alias = name.strip().partition(" as ")
            yield module, name, alias or name


@functools.lru_cache(maxsize=None)
def passed_on(module):
    """Where the names come from that a page of the toolchain's only passes on."""
    page = re.fullmatch(r"Rattle\.(\w+)\.(specs\.Prelude|proofs\.Common)", module)
    if not page:
        return {}
    with open(os.path.join(kit(), page[1], *page[2].split(".")) + ".antt", encoding="utf-8") as file:
        return {alias: (module, name) for module, name, alias in uses(file.read())}


def origin(module, name):
    while name in passed_on(module):
        module, name = passed_on(module)[name]
    return module + "." + name


def imported(path):
    """Where the names of a file come from."""
    return {alias.strip("◌"): origin(module, name) for module, name, alias in uses(text(path))}


def tokens(source):
    return re.findall(r"[(){}]|[^\s(){}]+", source)


def projected(words, inputs, others):
    """With a field of an input as one word, and a field of another variable as the variable and the field."""
    for word in words:
        name, dot, field = word.partition(".")
        if dot and name in inputs:
            yield name + "·" + field
        elif dot and name in others:
            yield from (name, "." + field)
        else:
            yield word


def split(words, separator):
    """The parts between separators that stand in no parentheses."""
    parts, depth = [[]], 0
    for word in words:
        depth += (word == "(") - (word == ")")
        if word == separator and depth == 0:
            parts.append([])
        else:
            parts[-1].append(word)
    return parts


def arguments(words):
    """The words and the parenthesised parts that stand side by side."""
    parts, depth = [], 0
    for word in words:
        if depth == 0:
            parts.append([])
        depth += (word == "(") - (word == ")")
        parts[-1].append(word)
    return parts


def bare(words):
    """Without parentheses around the whole."""
    while words[0] == "(" and len(arguments(words)) == 1:
        words = words[1:-1]
    return words


def flat(words):
    """Without any parentheses: what is compared is proved, and of fixed arity, so that they tell no more."""
    return [word for word in words if word not in ("(", ")")]


class Call:
    """A public function: its text before the body, the types of its parameters, and the equations that it promises."""
    def __init__(self, path, match):
        quoted, self.name, parameters, self.answer, clauses = match.groups()
        self.path, self.quoted = path, quoted.rstrip()
        self.types = dict(re.findall(r"(\w+): ([^,\n]+)", parameters))
        self.equations = []
        before, *clauses = re.split(r"^    (?=\w+(?: \w+)? \{)", clauses, flags=re.MULTILINE)
        for clause in filter(None, [before] + clauses):
            self.add_clause(" ".join(clause.split()))
        self.check()
        names = {word: place for word, place in imported(path).items() if word not in self.types and word != ANSWER}
        self.equations = [[names.get(word, word) for word in flat(words)] for words in self.equations]

    def add_clause(self, clause):
        promise = re.fullmatch(r"ensures (?:\w+ )?\{ (.*) \}", clause)
        if not promise:
            raise Odd("this is no promise of an answer: " + clause)
        said = list(projected(map(self.held, tokens(promise.group(1))), self.types, [ANSWER]))
        # What is no equation says more of an answer that another clause has to fix.
        self.equations += [part for part in map(bare, split(said, "×")) if "≡" in part]

    def held(self, word):
        """What a slice holds before the call is its own name, and after it the name with `·exit`; any other way to speak of it is odd."""
        name, _, moment = word.partition(".")
        kind = self.answer if name == ANSWER else self.types.get(name, "")
        if kind.startswith("&"):
            known = {BEFORE: name, AFTER: name + "·exit"} if kind.startswith("&mut") else {LENT: name}
            if moment not in known:
                raise Odd("this is not what %s holds before the call or after it: %s" % (name, word))
            return known[moment]
        return word

    def due(self):
        """What the contract has to fix."""
        return {ANSWER} | {name + "·exit" for name, kind in self.types.items() if kind.startswith("&mut")}

    def check(self):
        told = []
        for equation in self.equations:
            left, right = ([flat(side) for side in split(equation, "≡")] + [[]])[:2]
            fixed = [word for word in left if word == ANSWER or word.endswith("·exit")]
            if not fixed or not right or any(word == ANSWER or word.endswith("·exit") for word in right):
                raise Odd("this fixes nothing: " + " ".join(equation))
            if ANSWER not in fixed and left != fixed:
                raise Odd("this does not fix all that is left: " + " ".join(equation))
            told.append(fixed[0])
        if sorted(told) != sorted(self.due()):
            raise Odd("it has to fix %s, each once, and fixes %s" % (sorted(self.due()), sorted(told)))

    def type_of(self, word):
        """What a theorem calls the type of an input, an exit or the answer."""
        name, _, part = word.partition("·")
        kind = self.answer if word == ANSWER else self.types[name]
        if part and not kind.startswith("&"):
            return "ℕ"
        return told_type(kind)


def told_type(kind):
    """What a theorem calls a type of the code, its tokens apart."""
    generic = re.fullmatch(r"(Result|Option)<(.*)>", kind)
    if generic:
        inner = [told_type(part) for part in re.split(r", (?![^\[]*\])", generic[2])]
        return " ".join([generic[1]] + ["( %s )" % part if " " in part else part for part in inner])
    if "[" in kind:
        return "List ℕ"
    return "ℕ" if kind in ("u64", "usize") else kind.split("::")[-1]


def unfolded(words, names):
    """The equations of what is assumed; an abbreviation is replaced by what it stands for."""
    for part in map(bare, split(bare(words), "×")):
        if len(split(part, "≡")) == 2:
            yield [names.get(word, word) for word in flat(part)]
        else:
            yield from unfolded(meaning(names.get(part[0], part[0]), arguments(part[1:])), names)


def meaning(name, values):
    module, _, name = name.rpartition(".")
    path = re.sub(r"^Rattle\.(\w+)\.(\w+)\.(\w+)$", r"crates/\1/\2/\3.antt", module)
    pattern = r"^abbrev pub %s :[^\n]*\n%s ([^=\n]*) = ([^\n]*)$" % (re.escape(name), re.escape(name))
    found = re.search(pattern, text(path), re.MULTILINE) if path in proofs() else None
    if not found or len(found.group(1).split()) != len(values):
        raise Odd("%s is neither an equation nor an abbreviation" % name)
    names = {word: [place] for word, place in imported(path).items() if word not in ("≡", "×")}
    names.update(zip(found.group(1).split(), values))
    return [word for old in tokens(found.group(2)) for word in names.get(old, [old])]


class Theorem:
    """A uniqueness theorem: its variables' types, the pairs that it says are equal, and what it assumes of each side."""
    def __init__(self, path, name, statement):
        self.path, self.name, self.quoted = path, name, "%s : %s" % (name, statement.strip())
        self.types = {}
        *parts, concluded = split(tokens(statement), "→")
        assumed = [part for part in parts if not self.add_variables(part)]
        self.pairs = [tuple(flat(part)[::2]) for part in split(concluded, "×") if flat(part)[1:2] == ["≡"]]
        if [len(pair) for pair in self.pairs] != [2] * len(split(concluded, "×")):
            raise Odd("what it concludes is not that variables are equal")
        names = {word: place for word, place in imported(path).items() if word not in self.types}
        both = [self.joined(words) for part in assumed for words in unfolded(part, names)]
        self.equations = both[:len(both) // 2]
        others = dict(self.pairs)
        if [[others.get(word, word) for word in equation] for equation in self.equations] != both[len(both) // 2:]:
            raise Odd("it does not assume the same of both")

    def add_variables(self, part):
        """True where the part is `(names : type) ..` and not something assumed."""
        groups = [split(group[1:-1], ":") for group in arguments(part)]
        if not all(len(group) == 2 for group in groups):
            return False
        for names, kind in groups:
            self.types.update({name: " ".join(kind) for name in names})
        return True

    def joined(self, words):
        """A field of an input is one word, as in the equations of a call."""
        inputs = set(self.types) - {name for pair in self.pairs for name in pair}
        return list(projected(words, inputs, set(self.types) - inputs))

    def is_about(self, call):
        """Every word is the call's, or a variable that stands for the same word of the call throughout."""
        stands = {}
        if [len(equation) for equation in self.equations] != [len(equation) for equation in call.equations]:
            return False
        for ours, theirs in zip(self.equations, call.equations):
            for word, due in zip(ours, theirs):
                if word.partition("·")[0] not in self.types:
                    if word != due:
                        return False
                elif stands.setdefault(word, due) != due or not self.may_stand(word, due, call):
                    return False
        used = {word.partition("·")[0] for word in stands} | {other for _, other in self.pairs}
        return used == set(self.types) and {stands.get(one) for one, _ in self.pairs} == call.due()

    def may_stand(self, word, due, call):
        if due != ANSWER and due.partition("·")[0] not in call.types:
            return False
        return "·" in word or self.types[word] == call.type_of(due)


def calls():
    """The public functions, and the faults found in them."""
    found, faults = [], []
    pattern = r'^(pub (?:extern "C" )?fn (\w+)\((.*?)\) -> ([^\n]+)\n(.*?))^\{'
    for path in sources():
        matches = list(re.finditer(pattern, text(path), re.MULTILINE | re.DOTALL))
        if len(matches) != len(re.findall(r"^\s*pub [^\n]*\bfn ", text(path), re.MULTILINE)):
            faults.append("%s: a public function is not of the form looked for" % path)
        for match in matches:
            try:
                found.append(Call(path, match))
            except Odd as why:
                faults.append("%s: %s: %s" % (path, match.group(2), why))
    return found, faults


def theorems():
    """The uniqueness theorems, and the faults found in them."""
    found, faults = [], []
    for path in sorted(glob.glob("crates/*/proofs/Unique.antt", root_dir=ROOT)):
        for name, statement in re.findall(r"^pub (unique\S*) : (.*?)^\1 ", text(path), re.MULTILINE | re.DOTALL):
            try:
                found.append(Theorem(path, name, statement))
            except Odd as why:
                faults.append("%s: %s: %s" % (path, name, why))
    return found, faults


def header_faults(called):
    """The header and the calls for C have the same names."""
    declared = set(re.findall(r"^struct \w+ (gorvlime_\w+)\(", text("include/gorvlime.h"), re.MULTILINE))
    for name in sorted(declared ^ {call.name for call in called if 'extern "C"' in call.quoted}):
        yield "%s is in the header or among the calls for C, and not in both" % name


def quotation():
    """Every contract and the theorems about it, as docs/PROMISES.md quotes them; and the faults."""
    called, faults = calls()
    proved, odd = theorems()
    faults += odd + list(header_faults(called))
    lines = []
    for path in sources():
        named = re.findall(r"^ghost use [^;]*;", text(path), re.MULTILINE)
        lines += ["%s takes its names from:" % path, "", "```", *named, "```", ""]
    for call in called:
        about = [theorem for theorem in proved if theorem.is_about(call)]
        if not about:
            faults.append("%s: no uniqueness theorem is about what %s promises" % (call.path, call.name))
        lines += ["### %s" % call.name, "", "```", call.quoted, "```", ""]
        for theorem in about:
            lines += ["%s:" % theorem.path[len("crates/"):-len(".antt")], "", "```", theorem.quoted, "```", ""]
    for theorem in proved:
        if not any(theorem.is_about(call) for call in called):
            faults.append("%s: %s is about no public call" % (theorem.path, theorem.name))
    return "\n".join(lines), faults
