#!/usr/bin/env python3
"""Lists the places in src/ that docs/DESIGN-PASS.md counts, point by point, as they stand at a commit: tools/design_places.py [COMMIT] [-v]

Without a commit it reads HEAD. With -v it prints every place. It needs git alone, and judges nothing: the page says what became of each.
"""

import collections
import re
import subprocess
import sys

verbose = "-v" in sys.argv
commits = [it for it in sys.argv[1:] if it != "-v"]
commit = commits[0] if commits else "HEAD"


def git(*words):
    return subprocess.run(["git", *words], capture_output=True, text=True, check=True).stdout


listed = git("ls-tree", "-r", "--name-only", commit, "crates").split()
sources = {it: git("show", f"{commit}:{it}") for it in listed if re.search(r"/src/.*\.rt$", it)}


def code(text):
    return re.sub(r"//[^\n]*", "", text)


def places(pattern):
    found = []
    for file, text in sources.items():
        for i, line in enumerate(text.split("\n"), 1):
            if re.search(pattern, line.split("//")[0]):
                found.append(f"{file}:{i}: {line.strip()}")
    return found


def show(row, found):
    print(f"{len(found):5}  {row}")
    if verbose:
        for it in found:
            print(f"         {it}")


FUNCTION = r"\bfn (\w+)(?:<[^>]*>)?\(([^)]*)\)((?:[^{;]|;[^{\]]*\])*?)((?:\n\s*(?:requires|ensures)[^\n]*)*)\s*\n?\s*\{"


def functions():
    for file, text in sources.items():
        for it in re.finditer(FUNCTION, text):
            crate = file.split("/")[1]
            if crate != "board_c":
                yield f"{crate}::{it.group(1)}", it.group(2), it.group(4)


def asked():
    """The facts that a function asks of its caller, each of the conjuncts by itself."""
    facts = collections.defaultdict(set)
    for name, _, clauses in functions():
        for clause in re.findall(r"requires[^{]*\{(.*)\}", clauses):
            for fact in re.split(r"×", clause):
                fact = re.sub(r"^\(|\)$", "", fact.strip())
                facts[re.sub(r"\.(now|old|new)\b", "", fact)].add(name)
    return facts


def together():
    """Parameters, three or more, that stand side by side in five functions or more."""
    runs = collections.defaultdict(set)
    for name, words, _ in functions():
        words = [re.sub(r"\s+", " ", it.strip()) for it in words.split(",") if it.strip()]
        for i in range(len(words) - 2):
            runs[", ".join(words[i : i + 3])].add(name)
    return runs


def twins():
    names = collections.defaultdict(set)
    for name, _, _ in functions():
        crate, it = name.split("::")
        names[it].add(crate)
    return [f"{it}: {', '.join(sorted(names[it]))}" for it in sorted(names) if len(names[it]) > 1]


print(f"places in src/ at {git('rev-parse', commit).strip()}")
print("1. enums of one's own, flags, numbers for kinds and refusals")
show("enums", places(r"\benum [A-Z]"))
show("numbers of refusals, by name", places(r"\bconst (CUT_SHORT|NOT_ASSIGNED|SIZE_WRONG|UNFINISHED|OVER_TWO_BYTES|NOT_SHORTEST|NOT_UTF8|LONG_FORM|TOO_DEEP|INPUT_TOO_LONG|\w+_BROKEN|BUFFER_SHORT|MADE_TOO_DEEP|MADE_TOO_LONG|JOINED_TOO_LARGE|NO_SUCH_PART): usize = \d+;"))
show("places where a refusal's number stands", places(r"\bnumber(: (usize|u16|u32|[A-Z_0-9]+( as u16)?|_)\b|,| \})"))
show("numbers for kinds and modes, by name", places(r"\bconst (ARRAY|MAP|RECORD|FUNCTION|SYMBOL|VARIABLE|PLAIN|BARE|FIELDS|TEXTS|HEAD|SIZE_LOW|SIZE_HIGH|COUNT|COUNT_MORE|LENGTH|LENGTH_MORE|LETTERS|BLANK_LOW|BLANK_HIGH|DONE|FAULTY): u"))
show("values that stand for none", places(r"\bNO_PRIMITIVE\b|letters_only|first_bad|fn (bad_node|bad_name|char_at|char_with|packed_at)\b"))
show("fields and parameters that are flags", places(r"\b\w+: bool\b"))
print("2. twins")
show("names that functions of two crates have", twins())
print("3. loops")
show("while and loop", places(r"^\s*(while|loop)\b"))
show("turns that move a place of their own", places(r"^\s*for _ in "))
show("searches by hand", [it for it in places(r"^\s*return (false|Some\(\w+\)|at|x);") if "leaves" in it or "tables" in it])
print("4. equality, order, copies, conversions, printing by hand")
show("larger, smaller, both of two", places(r"\bfn (larger|least|farthest|both|before)\b"))
show("conversions by a function", places(r"\bfn (\w+_number|\w+_of|\w+_byte|level_in|items_of|first_of|digit)\(\w+: [^,)]*\)"))
show("tests that return false or true", places(r"^\s*return (true|false);"))
print("5. facts in contracts, parameters that travel together")
show("facts that three functions or more ask for", [f"{len(v)} {k}" for k, v in sorted(asked().items(), key=lambda it: -len(it[1])) if len(v) >= 3])
show("three parameters side by side in five functions or more", [f"{len(v)} {k}" for k, v in sorted(together().items(), key=lambda it: -len(it[1])) if len(v) >= 5])
print("6. buffers with a length beside, arrays side by side, searches by hand")
show("a slice with a place where it ends beside it", places(r"\b(s|sheet|rest): &\[u8\].*\b(end|stop): usize|^\s*(pub )?end: usize,"))
show("arrays", places(r"\[(u(8|16|32|64)|[A-Z]\w+); \w+\]|\[0(u8|u16)?; [A-Z_]+\]"))
print("7. switches on a step")
show("matches on an act, a section or a way", places(r"\bmatch (\w+\.)?(act|section|way)\b"))
print("8. proofs")
for word, pattern in (("answers", r"^pub [\w-]+ : goal\.(?!invariant|decreases)"), ("lemmas", r"^pub (?!(?:data|record|mod|ruleset) )[^:]+ : (?!goal)")):
    total = 0
    for it in listed:
        if it.endswith(".antt") and "/proofs/" in it:
            total += len(re.findall(pattern, git("show", f"{commit}:{it}"), re.M))
    print(f"{total:5}  {word}")
