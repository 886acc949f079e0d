#!/usr/bin/env python3
"""Turns the repository's own antt names to snake case, after port.py: definitions, constructors, fields and lemmas; types, facts and modules keep
their capital. It reads the files below crates/ (.rt, .antt and .edit), writes those that change, and lays all out. Run once, at the top of the repository.

- A name that begins low and has capitals inside: ofTwo becomes of_two, everywhere.
- A name of specs/ with dashes: nodes-few becomes nodes_few. Lemmas of proofs/ keep the dash, which joins two names there.
- A lemma that would have its function's name gets _lem.
"""

import os
import re
import subprocess
import sys

# lemmas and local definitions that had the snake spelling already when a definition of the same name in camel case takes it
LEMMAS = {
    "after_text": None,
    "all_made": None,
    "by_first": None,
    "goes_on": None,
    "held_in": None,
    "items_at": None,
    "level_in": None,
    "no_items": None,
    "read_table": None,
    "text_in": None,
    "two_bytes": None,
    # functions of src/ have these names too: only these files speak of the lemmas
    "length_more": ("crates/byte_steps/proofs/Words.antt", "crates/byte_steps/proofs/Fed.antt"),
    "length_taken": ("crates/byte_steps/proofs/Words.antt", "crates/byte_steps/proofs/Fed.antt"),
}

NAME = re.compile(r"[^\s(){}\[\];,.:@\"⌜⌝⟦⟧`]+")
DEFINED = re.compile(r"^\s*(?:(?:unfoldable|abbrev|pub|data|record)\s+)*([^\s:(){}]+)\s+:(?:\s|$)")


def snake(name):
    return re.sub(r"(?<=[a-z0-9])[A-Z]", lambda m: "_" + m.group().lower(), name)


def is_camel(name):
    return re.match(r"[a-z]", name) and re.search(r"[a-z0-9][A-Z]", name) and "/" not in name


def files():
    for folder, inner, found in os.walk("crates"):
        inner[:] = sorted(d for d in inner if d != "out")
        for name in sorted(found):
            if name.endswith((".rt", ".antt", ".edit")):
                yield os.path.join(folder, name)


def main():
    dashed = set()
    for path in files():
        if "/specs/" in path:
            with open(path, encoding="utf-8") as f:
                for line in f:
                    m = DEFINED.match(line)
                    if m and re.fullmatch(r"[a-z][a-z0-9_]*(-[a-z0-9_]+)+", m.group(1)):
                        dashed.add(m.group(1))
    print("dashed names of specs:", " ".join(sorted(dashed)))
    changed = 0
    for path in files():
        with open(path, encoding="utf-8") as f:
            text = f.read()

        def turn(m):
            name = m.group()
            if path.endswith(".antt") and name in LEMMAS and (LEMMAS[name] is None or path in LEMMAS[name]):
                return name + "_lem"
            if is_camel(name):
                return snake(name)
            if name in dashed and not path.endswith(".rt"):
                return name.replace("-", "_")
            return name

        turned = NAME.sub(turn, text)
        if turned != text:
            changed += 1
            with open(path, "w", encoding="utf-8") as f:
                f.write(turned)
    print(changed, "files changed")
    # the layout of imports and tables follows the names
    for crate in sorted(os.listdir("crates")):
        subprocess.run(["rt", "fmt"], cwd=os.path.join("crates", crate), stdout=subprocess.DEVNULL)
    return 0


if __name__ == "__main__":
    sys.exit(main())
