#!/usr/bin/env python3
"""Brings the names of definitions and lemmas to today's spelling: words in snake case, a dash between two names.

usage: tools/port_names.py [--list]     at the top of the checkout, right after port.py; --list prints old and new names and writes nothing

A name that specs/ or proofs/ declare turns wherever it stands: in .antt files, in the clauses and comments of .rt files (no Rust item is spelled so),
in must-fail edits, and in code spans of pages. Types, facts and modules keep their capitals. A dash stays between two names, as in union-member, and becomes
a low line before a plain word, as in member_same. It stops where two names would fall together.
"""
import collections
import glob
import re
import sys

CHARS = r"[^\s(){}.;,@\"«»:`|]"
DECLARED = re.compile(r"\s*((?:(?:unfoldable|abbrev|pub|data|record|ruleset) )*)(%s+)(?: \([^()]*\)| \{[^{}]*\})*\s+:\s" % CHARS)
# Where two names would fall together, the definition has the plain one.
CHOSEN = {"firstRun": "the_first_run", "firstTwo": "the_first_two", "lineWord": "line_word_fits", "held-at": "held_at_lem", "high-bound": "high_bound_lem", "low-bound": "low_bound_lem",
          "is-hypothesis": "is_hypothesis_lem", "is-table": "is_table_lem", "rule-at": "rule_at_lem", "same-numbers": "same_numbers_lem", "some-line": "some_line_lem"}
# Words of the library that are names themselves.
LIBRARY = set("length append map sum take drop get_or set replicate reverse add mul sub min max suc zero one le lt eq nil cons cond not and or xor any all pad".split())

def files(*patterns):
    return sorted(p for it in patterns for p in glob.glob(it, recursive=True) if "/out/" not in p)

ANTT = files("crates/*/specs/**/*.antt", "crates/*/proofs/**/*.antt")

def declared():
    """Each declared name: whether it is a definition, constructor or field (else a lemma)."""
    found = collections.defaultdict(bool)
    for path in ANTT:
        for line in open(path, encoding="utf-8"):
            m = DECLARED.match(line)
            if m and not line.lstrip().startswith("--"):
                found[m.group(2)] |= "/specs/" in path or bool(re.search("unfoldable|abbrev|data|record", m.group(1)))
    return found

def snake(part):
    if not re.match(r"[a-z]", part):
        return part
    part = part.replace("the001", "the_001_" if re.match("the001.", part) else "the_001")
    words = re.sub(r"(?<=[a-z0-9'])(?=[A-Z])|(?<=[A-Z])(?=[A-Z][a-z])", "_", part)
    head, arrow, tail = words.partition("→")
    return re.sub("_+", "_", head.lower()) + arrow + (snake(tail) if arrow else "")

def respelled(name, names):
    parts = [snake(it) for it in re.split(r"(?<=[^\s-])-(?=[^\s-])", name)]
    out = parts[0]
    last = parts[0]
    for part in parts[1:]:
        joined = last in names and part in names
        out += ("-" if joined else "_") + part
        last = part if joined else (last + "_" + part)
    return out

def table():
    found = declared()
    names = {snake(n) for n, definition in found.items() if definition and "-" not in n} | LIBRARY
    new = {n: CHOSEN.get(n) or respelled(n, names) for n in found}
    rows = {old: it for old, it in new.items() if it != old}
    taken = collections.Counter(new.values())
    clash = [it for it, n in taken.items() if n > 1]
    if clash:
        sys.exit("port_names: these fall together: " + " ".join(sorted(f"{o}={n}" for o, n in new.items() if n in clash)))
    return rows

def main():
    rows = table()
    if sys.argv[1:] == ["--list"]:
        for old, new in sorted(rows.items()):
            print(old, new)
        return
    word = re.compile(r"(?<!%s)(%s)(?!%s)" % (CHARS, "|".join(re.escape(it) for it in sorted(rows, key=len, reverse=True)), CHARS))
    turn = lambda text: word.sub(lambda m: rows[m.group(1)], text)
    for path in ANTT + files("crates/*/src/**/*.rt", "crates/*/must-fail/*.edit", "tests/must-fail/**/*.edit"):
        with open(path, encoding="utf-8") as f:
            text = f.read()

        new = turn(text)
        if new != text:
            with open(path, "w", encoding="utf-8") as f:
                f.write(new)
    for path in files("*.md", "docs/*.md", "bench/*.md"):
        with open(path, encoding="utf-8") as f:
            text = f.read()
        new = re.sub(r"`[^`\n]+`", lambda m: turn(m.group(0)), text)
        if new != text:
            with open(path, "w", encoding="utf-8") as f:
                f.write(new)

main()
