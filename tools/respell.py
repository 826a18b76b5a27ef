#!/usr/bin/env python3
"""Brings the repository's own definitions and lemmas to today's spelling: words in snake case, as std's are. Run once, at the top, right
behind the kit's port.py: python3 tools/respell.py

A name is respelled where it is declared in a file of specs/ or proofs/, and wherever it stands as a whole word: in .antt files, in the
clauses and imports of .rt files, in the wrong programs, and between backquotes in the pages. Names of code, exported names, strings,
inputs and outputs are no such names. Where a lemma would get the name of a definition
it gets an ending, and where two names would fall together otherwise it stops, unless APART says what becomes of them.
"""

import collections
import glob
import re
import sys

# Where a lemma would get the name of a definition, it is told apart by an ending.
APART = {
    "purpose-of": "purpose_of_lem",
    "version-on": "version_on_lem",
    "version-in": "version_in_lem",
    "check-value": "check_value_lem",
    "symbol-of": "symbol_of_lem",
    "leaf-code": "leaf_code_lem",
    "in-line": "in_line_lem",
    "output-after": "output_after_lem",
    "under-version": "told_under_version",
    "with-answer": "with_answer_lem",
    "body-of": "body_of_lem",
}
# The same for names that are in snake case already, in one crate's proofs.
APART_IN = {"crates/scans/proofs/": {"one_more": "one_more_lem"}, "crates/file/proofs/": {"has_room": "has_room_lem"}}
WORD = r"[^\s(){};,.:=`\"/⌜⌝…]+"
DECLARED = [
    re.compile(r"^(?:abbrev |unfoldable )?(?:pub )?(" + WORD + r")\s*:(?:\s|$)"),
    re.compile(r"^(?:pub )?(?:data|record) (" + WORD + r")"),
    re.compile(r"^ruleset (?:pub )?(" + WORD + r")"),
]
MEMBER = re.compile(r"^ +(?:abbrev |unfoldable )?(?:pub )?(" + WORD + r")\s*:(?:\s|$)")


def declared(text):
    """The names that a file of specs/ or proofs/ declares, members of data, of records and of sections too."""
    for line in text.split("\n"):
        found = [m.group(1) for m in (shape.match(line) for shape in DECLARED) if m]
        if found:
            yield found[0]
        if m := MEMBER.match(line):
            yield m.group(1)


def snake(name):
    """The name in snake case; a type, a module and a fact keep their capitals."""
    if name in APART:
        return APART[name]
    if name[0].isupper():
        return name
    apart = re.sub(r"([a-z0-9])([A-Z])(?![A-Z])", lambda m: m.group(1) + "_" + m.group(2).lower(), name)
    return apart.replace("-", "_")


def main():
    antt = sorted(glob.glob("crates/*/specs/**/*.antt", recursive=True) + glob.glob("crates/*/proofs/**/*.antt", recursive=True))
    texts = [open(path, encoding="utf-8").read() for path in antt]
    names = set()
    for text in texts:
        names |= set(declared(text))
    # What the kit's own libraries declare under the same name stays.
    foreign = set()
    for text in texts:
        for row in re.findall(r"^use (?!Rattle\.(?!std\b))[^{;]*\{([^}]*)\}", text, re.M):
            foreign |= {name.strip() for name in row.split(",")}
    names -= foreign
    # An invariant and a measure are named after the loop, and a function's proof after the function.
    names = {name for name in names if not re.match(r"(invariant|decreases)-", name)}
    new = {name: snake(name) for name in names if snake(name) != name}
    # A mixfix name is used by its parts.
    for name in [name for name in new if "◌" in name]:
        for old, part in zip(name.split("◌"), new[name].split("◌")):
            if old != part:
                new[old] = part
    together = collections.defaultdict(set)
    for name in names - {name for apart in APART_IN.values() for name in apart}:
        together[new.get(name, name)].add(name)
    together = {name: olds for name, olds in together.items() if len(olds) > 1}
    for name, olds in list(together.items()):
        lemmas = [old for old in olds if "-" in old]
        if len(olds) == 2 and len(lemmas) == 1 and name + "_lem" not in names:
            new[lemmas[0]] = name + "_lem"
            del together[name]
        # Two that no file has both of stay apart by their modules.
        elif not any(len(olds & set(re.findall(WORD, text))) > 1 for text in texts):
            del together[name]
    if together:
        sys.exit(f"respell: names fall together: {together}")

    word = re.compile(WORD)

    def respelled(text, apart={}):
        def turn(m):
            name = m.group(0)
            if name in apart and not text[m.end() :].startswith("."):
                return apart[name]
            return new.get(name, name)

        return word.sub(turn, text)

    taken = []
    def apply(path, turn):
        text = open(path, encoding="utf-8").read()
        turned = turn(text)
        if turned != text:
            before, after = set(word.findall(text)), set(word.findall(turned))
            both = sorted(new[name] for name in new if name in before and name not in after and new[name] in before)
            taken.extend((path, name) for name in both)
            open(path, "w", encoding="utf-8").write(turned)

    for path in antt:
        # A module's file is named after a function, and so is not one of these.
        apart = next((names for folder, names in APART_IN.items() if path.startswith(folder)), {})
        apply(path, lambda text: respelled(text, apart))
    code = sorted(glob.glob("crates/*/src/**/*.rt", recursive=True))
    for path in code:
        # Code has no such names: in it only clauses and imports are met.
        apply(path, respelled)
    for path in sorted(glob.glob("crates/*/must-fail/*.edit")):
        apply(path, respelled)
    # The kit's script has respelled some of the names, but in no page.
    final = {new.get(name, name) for name in names}
    def paged(m):
        return word.sub(lambda w: snake(w.group(0)) if snake(w.group(0)) in final else w.group(0), respelled(m.group(0)))

    for path in sorted(glob.glob("*.md") + glob.glob("docs/*.md") + glob.glob("docs/landings/*.md")):
        apply(path, lambda text: re.sub(r"`[^`\n]*`", paged, text))
    for path, name in taken:
        print(f"respell: look: {path}: `{name}` stood there already")
    print(f"respell: {len(new)} names")


if __name__ == "__main__":
    main()
