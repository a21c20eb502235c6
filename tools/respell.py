#!/usr/bin/env python3
"""Brings the definitions and lemmas of every crate to one spelling: words in snake case.

usage: tools/respell.py [--list]      at the top of the repository, once; --list prints 'old<TAB>new' and changes nothing

A name counts that a file of specs/ or proofs/ declares, as a definition, a lemma, a field or a constructor, and that has a dash or a capital after its first letter.
Functions, exported names, strings and comments stay. A name that a file takes from the library stays in that file.
"""
import glob
import os
import re
import sys

TOKEN = re.compile(r"[^\s(){}\[\].,;:]+")
DECLARED = re.compile(r"^\s*(?:(?:abbrev|unfoldable|pub)\s+)*([^\s:(){}\[\].,;]+)\s*:\s(.*)$")
BAR = re.compile(r"^\s*\|")
FOREIGN = re.compile(r"^\s*(?:pub\s+)?(?:ghost\s+)?use\s+([^\s{]+?)\.\{([^}]*)\}")
# what falls together with another name once it is respelled
OTHERWISE = {
    "dist-of": "dist_of_is",
    "getD-each": "get_or_each",
    "begun-colours": "begun_colours_elsewhere",
    "entry-faulty": "entry_is_faulty",
    "no-path": "no_path_means",
    "plain-refusal": "plain_refusal_none",
    "room-short": "room_short_means",
    "sources-after": "sources_afterwards",
    "targets-after": "targets_afterwards",
}


def new_name(name):
    if name in OTHERWISE:
        return OTHERWISE[name]
    n = re.sub(r"(?<=[a-z0-9])([A-Z])", lambda m: "_" + m.group(1).lower(), name) if name[0].islower() or "-" in name else name
    if "-" in n:
        n = n[0].lower() + n[1:]
        n = "_".join(part[:1].lower() + part[1:] for part in n.split("-"))
    return n


def files():
    for pattern in ("crates/*/specs/*.antt", "crates/*/proofs/**/*.antt", "crates/*/src/**/*.rt"):
        yield from sorted(glob.glob(pattern, recursive=True))


def own_names(crates):
    names = {}
    for f in files():
        if f.endswith(".rt"):
            continue
        for line in open(f, encoding="utf-8"):
            m = DECLARED.match(line)
            if not m or line.lstrip().startswith(("--", "let ", "use ")) or re.match(r"(tie|goal)\.", m.group(2)):
                continue
            name = m.group(1)
            if re.fullmatch(r"[A-Za-z][\w'→-]*", name) and ("-" in name or re.search(r"[a-z0-9][A-Z]", name) and name[0].islower()):
                if re.match(r"(loop|returns|overflow|div|index|bound|narrow|slice|call)(-|$)", name) and "/Proof.antt" in f:
                    continue
                names.setdefault(name, set()).add(f)
    return names


def foreign(text, crates):
    out = set()
    for m in re.finditer(r"^\s*(?:pub\s+)?(?:ghost\s+)?use\s+([^\s{;]+?)\.\{([^}]*)\}", text, re.M):
        parts = m.group(1).split(".")
        if parts[0] == "Rattle" and len(parts) > 1 and parts[1] in crates:
            continue
        out |= {w.strip().split(" as ")[0] for w in m.group(2).split(",")}
    return out


def main():
    crates = {line.split(":")[0].split()[0] for line in open("crates.txt") if ":" in line and not line.startswith("#")}
    names = own_names(crates)
    table = {n: new_name(n) for n in names}
    table = {a: b for a, b in table.items() if a != b}
    every = set()
    for f in files():
        every |= set(TOKEN.findall(open(f, encoding="utf-8").read()))
    fall = {}
    for a, b in table.items():
        fall.setdefault(b, []).append(a)
    if "--list" in sys.argv:
        for a, b in sorted(table.items()):
            mark = ""
            if len(fall[b]) > 1:
                mark = "\tTWO " + " ".join(fall[b])
            elif b in every:
                mark = "\tSTANDS"
            print(f"{a}\t{b}{mark}")
        return
    for f in files():
        text = open(f, encoding="utf-8").read()
        keep = foreign(text, crates)
        here = {a: b for a, b in table.items() if a not in keep or f in names[a]}

        def turned(line):
            at = line.find("--") if f.endswith(".antt") else line.find("//")
            if at >= 0 and (at == 0 or line[at - 1] == " "):
                return TOKEN.sub(lambda m: here.get(m.group(0), m.group(0)), line[:at]) + line[at:]
            return TOKEN.sub(lambda m: here.get(m.group(0), m.group(0)), line)

        out = "".join(turned(line) for line in text.splitlines(keepends=True))
        if out != text:
            with open(f, "w", encoding="utf-8") as h:
                h.write(out)


main()
