#!/usr/bin/env python3
"""Prints what docs/DESIGN-PASS.md ends with: each public signature, clause, type with its invariant, definition of specs/ and statement of proofs/ that
is not word for word what it was at a commit, old and new side by side: tools/side_by_side.py OLD [NEW]

NEW is HEAD where it is left out. Things are paired by crate and name; RENAMED says what goes under another name now. Layout does not count.
"""

import collections
import re
import subprocess
import sys

OLD = sys.argv[1]
NEW = sys.argv[2] if len(sys.argv) > 2 else "HEAD"

RENAMED = {
    "answers::read_answer": "answers::in_numbers",
    "answers::child_answer": "answers::in_numbers",
    "answers::name_answer": "answers::in_numbers",
    "answers::sheet_answer": "answers::in_numbers",
    "answers::made_answer": "answers::in_numbers",
    "buffers::put_part": "buffers::put_bytes",
    "payloads::first_of": "payloads::First::from",
    "payloads::named_kind": "payloads::Kind::is_named",
    "payloads::shaped_kind": "payloads::Kind::is_shaped",
    "sheets::check_into": "sheets::Sheet::read",
    "sheets::entry_at": "sheets::Sheet::entry",
    "sheets::entry_of": "sheets::Sheet::get",
    "merges::turn_of": "merges::Joined::next",
    "counts::plus": "counts::Counts::add",
    "byte_steps::no_primitive": "byte_steps::Level::no_primitive",
    "byte_steps::with_due": "byte_steps::Level::with_due",
    "byte_steps::plain_items": "byte_steps::Items::is_plain",
    "items::bare": "byte_steps::Items::is_bare",
    "items::named": "byte_steps::Items::is_named",
    "states::entry_of": "states::Entry::from",
    "states::word_of": "states::Word::from",
    "states::mode_of": "states::Mode::from",
}


def git(*words):
    return subprocess.run(["git", *words], capture_output=True, text=True, check=True).stdout


def files(commit, pattern):
    for it in git("ls-tree", "-r", "--name-only", commit, "crates").split():
        if re.search(pattern, it):
            yield it.split("/")[1], git("show", f"{commit}:{it}")


def flat(text):
    return re.sub(r"\(\s+", "(", re.sub(r",?\s+\)", ")", re.sub(r"\s+", " ", text))).strip()


def functions(commit):
    found = {}
    for crate, text in files(commit, r"/src/.*\.rt$"):
        text = re.sub(r"//[^\n]*", "", text)
        owner, trait = "", False
        lines = text.split("\n")
        i = 0
        while i < len(lines):
            line = lines[i]
            head = re.match(r"^impl(?:<[^>]*>)? (?:(.*) for )?(\w+)", line)
            if head:
                owner, trait = head.group(2) + "::", bool(head.group(1))
                inside = re.match(r"^impl(?:<[^>]*>)? (.*?) \{", line)
            elif re.match(r"^(pub )?trait (\w+)", line):
                owner, trait = re.match(r"^(?:pub )?trait (\w+)", line).group(1) + "::", True
            elif line.startswith("}"):
                owner, trait = "", False
            start = re.match(r"^\s*(pub )?(?:extern \"C\" )?fn (\w+)", line)
            if start:
                words = [line]
                while not re.search(r"[{;]\s*$", lines[i]) or re.search(r"(requires|ensures)[^{]*\{[^}]*$", lines[i]):
                    i += 1
                    if lines[i].strip() == "{":
                        break
                    words.append(lines[i])
                if start.group(1) or trait:
                    found[f"{crate}::{owner}{start.group(2)}"] = flat(re.sub(r"\{\s*$", "", " ".join(words)))
            i += 1
        for it in re.finditer(r"^((?:#\[[^\n]*\]\n)*)pub (struct|enum) (\w+)[^{;(]*(\{.*?^\}|\([^;]*;|;)", text, re.M | re.S):
            found[f"{crate}::{it.group(3)} (type)"] = flat(it.group(0))
    return found


def definitions(commit):
    found = {}
    for crate, text in files(commit, r"/specs/(?!Lib)\w+\.antt$"):
        text = re.sub(r"^\s*--[^\n]*\n", "", text, flags=re.M)
        for it in re.split(r"\n(?=[ ]*(?:abbrev|unfoldable|pattern|pub (?:data|record))\b)", text):
            head = re.match(r"[ ]*(?:abbrev |unfoldable |pattern )*(?:pub )?(?:data |record )?([^\s:(]+)", it)
            if head and not it.lstrip().startswith("use "):
                found[f"{crate}: {head.group(1)}"] = flat(it.split("\n\n")[0])
    return found


def statements(commit):
    found = collections.defaultdict(str)
    for crate, text in files(commit, r"/proofs/[A-Z]\w*\.antt$"):
        for it in re.finditer(r"^\s*pub (?!(?:data|record|mod|ruleset|abbrev) )([\w'≤-]+) : (.*(?:\n\s+→.*)*)", text, re.M):
            found[f"{crate}: {it.group(1)}"] = flat(it.group(2))
    return found


def show(title, old, new):
    changed = []
    for name in sorted(set(old) | set(new)):
        to = RENAMED.get(name, name)
        was, now = old.get(name), new.get(to)
        if name not in old and name in RENAMED.values():
            continue
        if was != now or to != name:
            changed.append((name, to, was, now))
    print(f"\n### {title}: {len(changed)} of {len(old)}\n")
    for name, to, was, now in changed:
        print(f"- `{name}`" + (f", now `{to}`" if to != name else ""))
        print(f"    - old: `{was}`" if was else "    - new here")
        print(f"    - new: `{now}`" if now else "    - gone")


print(f"From {git('rev-parse', OLD).strip()} to {git('rev-parse', NEW).strip()}.")
show("Public functions, of traits too, and public types", functions(OLD), functions(NEW))
show("Definitions of specs/", definitions(OLD), definitions(NEW))
show("Statements of proofs/", statements(OLD), statements(NEW))
