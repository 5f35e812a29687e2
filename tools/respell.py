#!/usr/bin/env python3
"""Spells the names that this repository's specs/ and proofs/ declare as Rattle's guides do: words and lemmas in snake case, types with a capital.

usage: python3 tools/respell.py        at the top of the repository, once, after port.py

It goes by text: crates' .rt and .antt files, the 'old:' and 'new:' lines of must-fail edits, and the text between back quotes of the pages.
A name is one that a file of specs/, or a lemma file of proofs/, declares, or a camel case name that some .antt file binds. Names that the kit's
library has in a file's imports stay there. A lemma that would meet a function's name gets the ending _lem (OTHERWISE).
Names of src/, of goals (proofs/F/Proof.antt), strings, inputs and outputs stay.
"""

import os
import re
import sys

TOKEN = r'[^\s(){}.;,@"«»`|]+'
BINDER = re.compile(r'[({]([^\s(){}.;,@"«»:]+) :')
# A declaration, at any depth of modules and where-blocks, a field, a let.
DECLARED = re.compile(r'(?:^ *|\blet )(?:(?:pub|abbrev|unfoldable|data|record|ruleset) )*([^\s(){}.;,@"«»:=]+)(?: [({][^=]*?[)}])*(?: :| = )')
CAMEL = re.compile(r"^[a-zμ][^-]*[a-z0-9][A-Z]")
USE = re.compile(r'\b(?:pub |ghost )?use ([^\s;{]+)(?:\{([^}]*)\})?')
# Lemmas whose names in snake case would be those of functions, and what is not to be told apart by a script.
OTHERWISE = {
    "links-of": "links_of_lem",
    "wire-list": "wire_list_lem",
    "boxes-most": "boxes_most_lem",
    "turn-from": "turn_from_lem",
    "set-of": "set_of_lem",
    "start-sends": "start_sends_lem",
    "rest-hop": "rest_hop_lem",
    "no-sets": "no_sets_lem",
    "wires-of": "wires_of_lem",
    "round-sends": "round_sends_lem",
    "is-first": "is_first_lem",
    "most-links": "most_links_lem",
    "took-pair": "took_pair_lem",
    "no-wire": "no_wire_lem",
    "on-sheet": "on_sheet_lem",
}
# Lemmas whose names were in snake case already, or that port.py spelled so, and that meet a function's name: in the crates' specs/ and proofs/.
MET = {
    "head_at": ("order",),
    "list_at": ("shows",),
    "box_of": ("order",),
    "set_if": ("boxes", "sets", "sends", "turns"),
    "at_rest": ("order",),
    "one_list": ("shows",),
}


def snake(name):
    if name in OTHERWISE:
        return OTHERWISE[name]
    if not name[0].isupper():
        name = re.sub(r"(?<=[a-z0-9])[A-Z]", lambda m: "_" + m[0].lower(), name)
    return re.sub(r"(?<=[\w'])-(?=[\w'])", "_", name)


def files(root, ends):
    for folder, dirs, names in os.walk(root):
        dirs[:] = sorted(d for d in dirs if d not in ("out", ".git", "target"))
        for n in sorted(names):
            if n.endswith(ends):
                yield os.path.join(folder, n)


def read(p):
    with open(p, encoding="utf-8") as f:
        return f.read()


def is_of_a_function(p):
    """A file of proofs/F/, whose own names are those of goals."""
    return re.search(r"/proofs/.+/(Proof|Answers|Invariants)\.antt$", p) is not None


def code_of(t):
    return re.sub(r"(?m)(^|\s)--( .*)?$", r"\1", t)


def imported(t):
    """The names that a file imports from the kit, and those from this repository."""
    kit, own = set(), set()
    for path, items in USE.findall(t):
        to = own if re.match(r"Rattle\.(?!std\b|core\b|io\b|libc\b)", path) else kit
        to.update(re.findall(TOKEN, items or ""))
    return kit, own


def main():
    if not os.path.isdir("crates") or len(sys.argv) > 1:
        print(__doc__)
        return 2
    antt = list(files("crates", ".antt"))
    declared = set()
    for p in antt:
        t = read(p)
        if is_of_a_function(p):
            declared.update(re.findall(r"(?m)^pub (\S+-spec) :", t))
            continue
        for line in t.splitlines():
            if line.startswith(("--", "use ", "pub use", "pub mod", "mod ")):
                continue
            declared.update(DECLARED.findall(line))
            declared.update(n for n in BINDER.findall(line) if re.search(r"[\w']-[\w']", n))
    names = {n: snake(n) for n in declared if snake(n) != n}
    for p in antt:
        for n in re.findall(TOKEN, code_of(read(p))):
            if CAMEL.match(n) and n not in names and n not in imported(read(p))[0]:
                names[n] = snake(n)
    back = {}
    for old, new in names.items():
        back.setdefault(new, []).append(old)
    for new, olds in back.items():
        if len(olds) > 1:
            print(f"look: {olds} fall together as {new}")
    token = re.compile(TOKEN)
    for p in antt + list(files("crates", (".rt", ".edit"))):
        t = read(p)
        kit, own = imported(t)
        held = {n for n in kit if n in names and n not in own}
        here = dict(names)
        here.update({old: old + "_lem" for old, crates in MET.items() if p.endswith(".antt") and p.split("/")[1] in crates})
        words = set(token.findall(code_of(t)))
        for old in words & set(here):
            if here[old] in words and old not in held and here.get(here[old], here[old]) == here[old]:
                print(f"look: {p}: {old} becomes {here[old]}, which stands there already")

        def turn(m):
            return m[0] if m[0] in held else here.get(m[0], m[0])

        new = token.sub(turn, t)
        if new != t:
            with open(p, "w", encoding="utf-8") as f:
                f.write(new)
    for p in list(files("docs", ".md")) + ["README.md"]:
        t = read(p)
        # port.py has spelled some of the names already, which the pages still have as they were.
        of_page = lambda m: names.get(m[0], snake(m[0]) if snake(m[0]) in declared else m[0])
        new = re.sub(r"`[^`\n]+`", lambda q: token.sub(of_page, q[0]), t)
        if new != t:
            with open(p, "w", encoding="utf-8") as f:
                f.write(new)
    return 0


if __name__ == "__main__":
    raise SystemExit(main())
