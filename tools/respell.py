#!/usr/bin/env python3
"""Brings this repository's definitions and lemmas to today's spelling of names, after port.py.

Words and lemmas of specs/ and proofs/ go into snake case; types, facts and modules keep their
capitals. Where a lemma would then have the name of a definition, it gets `_lem` at its end. Names of
Rust source (functions, fields, exports), strings, inputs and outputs are left as they are. Run once, at
the top of the repository; a second run changes nothing.
"""
import glob
import os
import re

# What a signature line of specs/ or proofs/ declares.
DECLARED = re.compile(r"^(\s*)(?:(?:abbrev|unfoldable) )?(?:pub )?([^\s:(){}]+) +: ", re.M)
# A name of antt: letters, digits, dashes, underscores, primes.
TOKEN = re.compile(r"(?<![\w'-])([A-Za-z][\w'-]*)")
# Constructors that are declared several to a line.
TOGETHER = {"saidVal", "saidAux"}
# What port.py has turned in code and proofs already, but not in pages and in the heads of edits.
PORTED = """
after-first after-last after-next agree-same all-after all-digits all-from answerOf any-of
applied-by asks-rest at-byte bit-val by-only by-turn byte-fits choose-spec count-none count-same
count-spec digits-append fields-join first-piece firstOf fits-low found-none foundAt frame-same
frameAt frameOf from-first front-length given-is goes-on goes-over goes-with half-pow holds-parts
in-bytes in-list in-order in-parts in-place itemAt kept-record last-or left-is left-over length-more
line-of low-bits low-fits made-by member-union moveOf named-in never-split no-member no-word
none-before none-seen not-three number-at numberOf one-bit one-more one-of one-shl only-one
only-same only-zero open-by open-spec orElse out-of-range over-add own-back own-in part-length
part-same partOf pass-spec pieces-whole put-back put-one put-refused put-same put-step quiet-frame
read-as read-spec reads-none record-is refusal-is rest-from said-in said-more said-of same-length
same-number says-two seen-by seen-nothing setAt size-counts size-of sliceOf slotAt slotOf some-below
some-go start-spec step-in step-part step-spec stepOf stops-at tail-from take-spec told-in too-few
turn-spec two-said valOf value-in viewOf walk-ends walk-refused word-low word-stands wordOf
write-spec
""".split()


def snake(name):
    name = re.sub(r"([a-z0-9])([A-Z])", lambda m: m.group(1) + "_" + m.group(2).lower(), name)
    return name.replace("-", "_")


def shared(kind):
    """The .antt files right in specs/ or proofs/: there stand definitions and lemmas of our own."""
    return sorted(glob.glob(f"crates/*/{kind}/*.antt"))


def declared(files):
    names = set()
    for file in files:
        for match in DECLARED.finditer(open(file).read()):
            name = match.group(2)
            if name[0].islower() and name not in ("let", "in"):
                names.add(name)
    return names


def renaming():
    words = declared(shared("specs"))
    lemmas = declared(shared("proofs")) | TOGETHER
    new = {}
    taken = {}
    # Definitions first, then what proofs declare in camel case, then in snake case, then with dashes:
    # who comes later to a name that is taken gets `_lem`.
    order = sorted(words) + sorted(lemmas - words, key=lambda n: (not re.search("[A-Z]", n), "-" in n, n))
    for name in order:
        to = snake(name)
        if to in taken and taken[to] != name:
            to += "_lem"
        taken[to] = name
        if to != name:
            new[name] = to
    return new


def respell(text, new):
    return TOKEN.sub(lambda m: new.get(m.group(1), m.group(1)), text)


def respell_prose(text, new):
    """Pages name what is meant between backquotes."""
    return re.sub(r"`[^`\n]*`", lambda m: respell(m.group(0), new), text)


def respell_edit(text, pages, clauses):
    """The head of a must-fail edit names laws and goals, its pairs hold code and clauses."""
    lines = text.split("\n")
    return "\n".join(respell(line, pages if line.startswith("#") else clauses) for line in lines)


def main():
    new = renaming()
    clauses = {old: to for old, to in new.items() if re.search("[A-Z]", old)}
    pages = {**{old: new.get(snake(old), snake(old)) for old in PORTED}, **new}
    changed = 0
    for file in sorted(glob.glob("crates/*/**/*", recursive=True) + glob.glob("docs/**/*.md", recursive=True) + ["README.md"]):
        if "/out/" in file or not os.path.isfile(file) or file.endswith("PORT.md"):
            continue
        if not file.endswith((".antt", ".rt", ".md", ".edit")):
            continue
        old = open(file).read()
        if file.endswith(".antt"):
            text = respell(old, new)
        elif file.endswith(".md"):
            text = respell_prose(old, pages)
        elif file.endswith(".edit"):
            text = respell_edit(old, pages, clauses)
        else:
            # In code a dash is a minus; only names in camel case are ours for certain.
            text = respell(old, clauses)
        if text != old:
            open(file, "w").write(text)
            changed += 1
    print(f"respell: {len(new)} names, {changed} files")
    for old, to in sorted(new.items()):
        print(f"{old} {to}")


if __name__ == "__main__":
    main()
