#!/usr/bin/env python3
"""Moves files of theorems from a crate's specs/ to its proofs/, so that an edit of a definition in specs/ is refused by a theorem that it makes false.

usage: python3 tools/move_theorems.py CRATE MODULE..      at the top of the repository

A must-fail edit of a definition is read as bad where declarations of specs/ rest on what the edit breaks; in proofs/ they are what refuses it.
Statements and proofs stay as they are: only the module's path changes, in every file that names it.
"""

import os
import re
import subprocess
import sys


def main(crate, names):
    specs, proofs = f"crates/{crate}/specs", f"crates/{crate}/proofs"
    os.makedirs(proofs, exist_ok=True)
    for n in names:
        subprocess.run(["git", "mv", f"{specs}/{n}.antt", f"{proofs}/{n}.antt"], check=True)
    with open(f"{specs}/Lib.antt", encoding="utf-8") as f:
        lines = f.read().splitlines()
    moved = [f"pub mod {n}" for n in names]
    with open(f"{specs}/Lib.antt", "w", encoding="utf-8") as f:
        f.write("\n".join(l for l in lines if l not in moved) + "\n")
    lib = f"{proofs}/Lib.antt"
    had = open(lib, encoding="utf-8").read().splitlines() if os.path.exists(lib) else []
    with open(lib, "w", encoding="utf-8") as f:
        f.write("\n".join(had + [l for l in lines if l in moved]) + "\n")
    path = re.compile(rf"\bRattle\.{crate}\.specs\.({'|'.join(names)})\b")
    of_page = re.compile(rf"crates/{crate}/specs/({'|'.join(names)})\.antt")
    for folder, dirs, files in os.walk("."):
        dirs[:] = [d for d in dirs if d not in ("out", ".git", "target")]
        for it in files:
            p = os.path.join(folder, it)
            if not it.endswith((".antt", ".rt", ".edit", ".md")) or p.startswith("./docs/PORT"):
                continue
            with open(p, encoding="utf-8") as f:
                t = f.read()
            new = path.sub(rf"Rattle.{crate}.proofs.\1", t)
            new = of_page.sub(rf"crates/{crate}/proofs/\1.antt", new)
            if it.endswith(".edit") and p.startswith(f"./crates/{crate}/"):
                new = re.sub(rf"(?m)^file: specs/({'|'.join(names)})\.antt", r"file: proofs/\1.antt", new)
            if new != t:
                with open(p, "w", encoding="utf-8") as f:
                    f.write(new)


if __name__ == "__main__":
    if len(sys.argv) < 3:
        print(__doc__)
        raise SystemExit(2)
    main(sys.argv[1], sys.argv[2:])
