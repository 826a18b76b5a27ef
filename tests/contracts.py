"""Holds the contracts of all functions that leave their crates to two rules, so that a weaker one fails the gate.

No such function has a `requires`. Its `ensures` are equations with definitions, for its answer and for what each lent buffer holds
afterwards, or named relations that are made of such equations. And each statement of the demands has a proof under its name. What crate
peliranopi_c exports for C has the names and the clauses of crate peliranopi's functions.
"""

import glob
import os
import re
import sys

# What these read and write is the system's: no contract can say what it is.
SYSTEM = {"streams"}

# Where one of these stands in a fact, an equation beside it need not hold.
LOOSE_SIGNS = ("→", "←", "↔", "⊎", "∨", "∃", "∀", "Σ", "λ")
OPENS, CLOSES = "({[⌜", ")}]⌝"


def close_of(text, start):
    """Where the bracket that stands at the start closes."""
    depth = 0
    for i in range(start, len(text)):
        depth += (text[i] in OPENS) - (text[i] in CLOSES)
        if depth == 0:
            return i
    sys.exit("tests/contracts.py: a bracket does not close: " + text[start : start + 60])


def apart(text, sign):
    """The parts of a text between the signs that stand in no bracket."""
    parts, depth, start = [], 0, 0
    for i, c in enumerate(text):
        depth += (c in OPENS) - (c in CLOSES)
        if depth == 0 and text.startswith(sign, i):
            parts.append(text[start:i].strip())
            start = i + len(sign)
    return parts + [text[start:].strip()]


def bare(text):
    """The text without the brackets around the whole of it."""
    text = " ".join(text.split())
    while text.startswith("(") and close_of(text, 0) == len(text) - 1:
        text = text[1:-1].strip()
    return text


def words(text):
    """The words of an application; what stands in brackets is one."""
    return [bare(word) for word in apart(text, " ") if word]


def says(text, name):
    """Whether a text names a value, also by a field of it or by what it points to."""
    return re.search(r"(?<![\w.])%s(?![\w'])" % re.escape(name), text)


def fixed(fact, relations):
    """What a fact fixes: the left sides of its equations with something else."""
    fact = bare(fact)
    if found := re.match(r"let ([\w']+)(?: : [^=]*)? =", fact):
        behind = apart(fact[found.end() :], " in ")
        told = fixed(" in ".join(behind[1:]), relations) if len(behind) > 1 else set()
        # A name that the `let` gives is no longer the function's.
        return {one for one in told if not says(one, found[1])}
    if any(len(apart(fact, sign)) > 1 for sign in LOOSE_SIGNS):
        return set()
    facts = apart(fact, " × ")
    if len(facts) > 1:
        return set().union(*(fixed(one, relations) for one in facts))
    sides = [bare(side) for side in apart(fact, " ≡ ")]
    if len(sides) == 2:
        left, right = sides
        own = left.removesuffix(".now") if left.startswith("result") else left
        return set() if says(right, own) else {left}
    name, *lent = words(fact)
    if name not in relations:
        return set()
    parameters, body = relations[name]
    if len(parameters) != len(lent):
        return set()
    told = fixed(body, relations)
    return {one for parameter, one in zip(parameters, lent) if parameter in told}


class Function:
    """A function's name, its parameters, whether it answers, and its clauses, as pairs of a kind and a text."""

    def __init__(self, source, at):
        self.name = re.match(r"\w+", source[at:])[0]
        at += len(self.name)
        if source[at] == "<":
            depth = 0
            while depth or source[at] == "<":
                depth += (source[at] == "<") - (source[at] == ">" and source[at - 1] != "-")
                at += 1
        end = close_of(source, at)
        self.parameters, self.clauses = source[at + 1 : end], []
        at, signature = end + 1, ""
        while source[at] not in "{;":
            if found := re.compile(r"\b(requires|ensures)\b(\*?)\s*\w*\s*(?=\{)|\bghost\s+\w+\s*:\s*(?=\{)").match(source, at):
                end = close_of(source, found.end())
                if found[1]:
                    self.clauses.append((found[1] + found[2], source[found.end() + 1 : end]))
                at = end + 1
            else:
                end = close_of(source, at) if source[at] in "([" else at
                signature += source[at : end + 1]
                at = end + 1
        self.answers = signature.strip().startswith("->")


def uncommented(source):
    """The source with spaces for its comments."""
    return re.sub(r"//[^\n]*|/\*.*?\*/", lambda found: re.sub(r"[^\n]", " ", found[0]), source, flags=re.S)


def functions(source, also_methods=False):
    """The public functions of a file, or its public methods."""
    start = r"^[ \t]+" if also_methods else r"^"
    return [Function(source, found.end()) for found in re.finditer(start + r'pub (?:(?:const|unsafe|extern "C") )*fn (?=\w)', source, re.M)]


def faults(function, relations):
    """What is wrong with a function's contract."""
    wrong, holds = [], set()
    for kind, fact in function.clauses:
        if kind.startswith("requires"):
            wrong.append("it has a requires")
        elif kind == "ensures":
            holds |= fixed(fact, relations)
    lent = re.findall(r"(\w+)\s*: &(?:'\w+ )?mut ", function.parameters) + re.findall(r"&(?:'\w+ )?mut (self)\b", function.parameters)
    if len(lent) != len(re.findall(r"&\s*(?:'\w+ )?\s*mut\b", function.parameters)):
        wrong.append("it is lent something for writing that is not read here")
    if function.answers and not holds & {"result", "result.now"}:
        wrong.append("no equation has its answer")
    return wrong + ["no equation has " + one + ".new" for one in lent if one + ".new" not in holds]


def stated(function):
    """A function's parameters and clauses, whatever the lines are."""
    return [" ".join(text.split()).rstrip(", ") for text in (function.parameters, *(part for clause in function.clauses for part in clause))]


def module(folder, path):
    """The file of a module."""
    for end in (".rt", "/mod.rt"):
        if os.path.exists(folder + path.replace("::", "/") + end):
            return folder + path.replace("::", "/") + end
    sys.exit("tests/contracts.py: %s has no module %s" % (folder, path))


def exported(crate):
    """The public functions of a crate, as pairs of a file and a function; a public method of any type counts among them."""
    folder = "crates/%s/src/" % crate
    files = {}

    def of_file(path):
        if path not in files:
            files[path] = uncommented(open(path, encoding="utf-8").read())
        return files[path]

    root = of_file(folder + "lib.rt")
    for function in functions(root):
        yield folder + "lib.rt", function
    known = r'pub (?:mod \w+;|(?:struct|enum|const|type|trait|static) |(?:(?:const|unsafe|extern "C") )*fn \w|use [\w:]+(?:::\{[\w\s,]*\})?;)'
    for at in (found.start() for found in re.finditer(r"^pub(?!\()", root, re.M)):
        if not re.compile(known).match(root, at):
            sys.exit("tests/contracts.py: %s: what is '%s'?" % (crate, root[at:].split("\n")[0]))
    for path in re.findall(r"^pub mod (\w+);", root, re.M):
        for function in functions(of_file(module(folder, path))):
            yield module(folder, path), function
        if re.search(r"^pub (?:mod|use)\b", of_file(module(folder, path)), re.M):
            sys.exit("tests/contracts.py: %s: what does %s hand on?" % (crate, path))
    for whole in re.findall(r"^pub use ([^;]*);", root, re.M):
        path, _, names = whole.partition("::{") if "{" in whole else (whole.rpartition("::")[0], "", whole.rpartition("::")[2])
        for name in re.findall(r"\w+", names):
            if name[0].islower():
                found = [one for one in functions(of_file(module(folder, path))) if one.name == name]
                if len(found) != 1:
                    sys.exit("tests/contracts.py: %s: %s has %d functions %s" % (crate, path, len(found), name))
                yield module(folder, path), found[0]
    for path in sorted(glob.glob(folder + "**/*.rt", recursive=True)):
        for function in functions(of_file(path), also_methods=True):
            yield path, function


def relations_of(specs):
    """The named relations: their parameters and what they say."""
    found = re.findall(r"^abbrev pub ([A-Z]\w*) : [^\n]*Type 0\n\1 ([\w' ]+) =\s(.*?)(?=\n\n|\Z)", specs, re.M | re.S)
    return {name: (parameters.split(), body) for name, parameters, body in found}


def unproved(statements, proofs):
    """The statements that no proof names: `FileExactly` is proved as `file_exactly`."""
    for name in statements:
        proof = "_".join(re.findall(r"[A-Z][a-z0-9]*", name)).lower()
        if not re.search(r"^pub %s : %s$" % (proof, name), proofs, re.M):
            yield name


def statements_of(specs):
    return re.findall(r"^abbrev pub ([A-Z]\w*) : Type 0$", specs, re.M)


# Contracts that the rules must find wrong, lest they find nothing, and some that they must let through.
LOOSE = """\
abbrev pub Loose : List ℕ → ℕ → List ℕ → Type 0
Loose s answer after = (answer ≡ least s) × (length after ≡ length s)

abbrev pub Tight : List ℕ → ℕ → List ℕ → Type 0
Tight s answer after =
    let said = least s in
    (answer ≡ said) × (after ≡ s)
"""
WEAK = (
    "pub fn f(n: usize) -> usize {",
    "pub fn f(n: usize) -> usize\n    ensures { result ≤ n }\n{",
    "pub fn f(n: usize) -> usize\n    ensures { result ≡ result }\n{",
    "pub fn f(n: usize) -> usize\n    ensures { result ≡ least result.fst }\n{",
    "pub fn f(n: usize) -> usize\n    ensures { n ≡ 3 → result ≡ least n }\n{",
    "pub fn f(n: usize) -> usize\n    ensures { (result ≡ least n) ⊎ (n ≡ 3) }\n{",
    "pub fn f(n: usize) -> usize\n    ensures { result ≡ least n ⊎ n ≡ 3 }\n{",
    "pub fn f(n: usize) -> usize\n    ensures { let result = least n in result ≡ least n }\n{",
    "pub fn f(n: usize) -> usize\n    requires { n ≤ 3 }\n    ensures { result ≡ least n }\n{",
    "pub fn f(n: usize) -> usize\n    requires few { n ≤ 3 }\n    requires some { 0 < n }\n    ensures { result ≡ least n }\n{",
    "pub fn f(n: usize) -> usize requires { n ≤ 3 } ensures { result ≡ least n } {",
    "pub fn f(n: usize) -> usize\n    // ensures { result ≡ least n }\n{",
    "pub fn f(n: usize) -> usize\n    ensures* { ⌜ result ≡ least n ⌝ }\n{",
    "pub fn f(s: &mut [u8]) -> usize\n    ensures { result ≡ least s.old }\n{",
    "pub fn f(s: &mut [u8])\n    ensures { s.new ≡ set s.new 0 }\n{",
    "pub fn f(s: &mut [u8])\n    ensures { s.old ≡ s.new }\n{",
    "pub fn f(&mut self)\n    ensures { self.old ≡ 3 }\n{",
    "pub fn f<'a>(s: Option<&'a mut [u8]>) -> usize\n    ensures { result ≡ 3 }\n{",
    "pub fn f(s: &mut [u8]) -> usize\n    ensures { Loose s.old result s.new }\n{",
    "pub fn f(s: &mut [u8]) -> usize\n    ensures { Tight s.old result }\n{",
    "pub fn f(s: &mut [u8]) -> usize\n    ensures { Tight s.new result s.old }\n{",
)
STRONG = (
    "pub fn f(n: usize) {",
    "pub fn f<F: Fn(u8) -> u8>(n: usize) {",
    "pub fn f(n: usize) -> usize\n    ensures { result ≡ of (record { a = n; b = 3 }) }\n{",
    "pub fn f(s: &mut [u8]) -> usize\n    ensures value { result ≡ least s.old }\n    ensures after { s.new ≡ s.old }\n{",
    "pub fn f(s: &mut [u8]) -> usize\n    ensures { Tight s.old result s.new }\n{",
    "pub fn f(s: &[u8]) -> &[u8]\n    ensures { result.now ≡ rest s.now }\n{",
)


def check_of_the_rules():
    relations = relations_of(LOOSE)
    for is_weak, contracts in ((True, WEAK), (False, STRONG)):
        for contract in contracts:
            (function,) = functions(uncommented(contract))
            if bool(faults(function, relations)) != is_weak:
                sys.exit("tests/contracts.py: finds %s wrong with\n%s" % ("nothing" if is_weak else "something", contract))


def main():
    check_of_the_rules()
    relations = {}
    for path in sorted(glob.glob("crates/*/specs/**/*.antt", recursive=True)):
        for name, said in relations_of(open(path, encoding="utf-8").read()).items():
            # Two relations of one name are told apart by no contract here.
            relations[name] = said if relations.get(name, said) == said else ([], "")
    count, wrong = 0, []
    for root in sorted(glob.glob("crates/*/src/lib.rt")):
        crate = root.split("/")[1]
        for path, function in exported(crate):
            found = faults(function, relations)
            if crate in SYSTEM:
                found = [fault for fault in found if not fault.startswith("no equation")]
            wrong += ["tests/contracts.py: %s::%s: %s" % (crate, function.name, fault) for fault in found]
            count += 1
    own, for_c = ({function.name: stated(function) for _, function in exported(crate)} for crate in ("peliranopi", "peliranopi_c"))
    wrong += ["tests/contracts.py: peliranopi_c::%s: not as in peliranopi" % name for name in own | for_c if own.get(name) != for_c.get(name)]
    if wrong:
        sys.exit("\n".join(wrong))
    print("test: %d exported contracts: equations with definitions, without a requires" % count)
    proved_statements()


def proved_statements():
    if list(unproved(["FileExactly"], "pub file_exactly : FileExactly\n")) or not list(unproved(["FileExactly"], "")):
        sys.exit("tests/contracts.py: cannot tell whether a statement is proved")
    count = 0
    for path in sorted(glob.glob("crates/demands/specs/*.antt")):
        statements = statements_of(open(path, encoding="utf-8").read())
        proofs = open(path.replace("/specs/", "/proofs/"), encoding="utf-8").read()
        for name in unproved(statements, proofs):
            sys.exit("tests/contracts.py: %s: no proof of %s" % (path, name))
        count += len(statements)
    print("test: %d statements of the demands: each has its proof" % count)


main()
