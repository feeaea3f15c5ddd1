#!/usr/bin/env python3
"""Spells the repository's own definitions, record fields and lemmas as today's Rattle does: values and lemmas in snake case, types in camel case.

usage: python3 tools/respell.py [--check]      at the top of a checkout, once, right after the toolchain's port.py

Names are those that specs/*.antt and proofs/*.antt declare; labels that Rattle makes (in Answers.antt, Invariants.antt and Proof.antt) stay, and so do Rust's names.
It says which new names fall together with others ('meets:'); OTHERS below gives those a spelling of their own.
"""
import collections
import os
import re
import sys

WORD = re.compile(r"[^\s(){}.;,@\"«»\[\]]+")
HEAD = re.compile(r"^(?:(?:pub|abbrev|unfoldable|instance) +)*(?:record +|data +)?([^\s(){}.;,@\"«»]+)(?= (?::|\())")
FIELD = re.compile(r"^ +(?:pub )?([^\s(){}.;,@\"«»]+) : ")
MADE = ("Answers.antt", "Invariants.antt", "Proof.antt", "Choices.antt")
# new spellings that would fall together with another name
OTHERS = {
    "asks-from-anywhere": "asked_from_anywhere",
    "opens-again": "opened_again",
    "opens-at-once": "opened_at_once",
    "opens-byte": "byte_opens",
    "opens-though-told": "opened_though_told",
    "refuses-old": "refused_old",
    "balancer-did": "balancer_has_done",
    "begun-in": "begun_so",
    "bucket-at": "tallied_at",
    "busy-in": "busy_one",
    "charge-at": "charge_of",
    "due-from": "due_counted",
    "door-heard": "door_hears",
    "emptied-all": "emptied_each",
    "forgotten-as": "forgotten_settles",
    "handle-at": "handled_at_place",
    "handled-as": "handled_so",
    "heard-of": "heard_keeps",
    "hears-forgotten": "on_forgotten",
    "hears-stood": "on_stood",
    "hears-told": "on_told",
    "is-bucket": "within_buckets",
    "kind-in": "kind_first",
    "oldest-in": "oldest_is_found",
    "on-way": "on_the_way",
    "power-to": "reaches_power",
    "protocol-number": "protocol_back",
    "refusal-number": "refusal_back",
    "ruled-by": "ruled_so",
    "same-link": "link_same",
    "server-did": "server_has_done",
    "stood-in": "stood_settles",
    "tail-in": "tail_is_some",
    "told-forgotten": "forgotten_told",
    "way-number": "way_back",
    "with-digit": "digit_undone",
}
# lemmas whose name, as port.py left it, would meet a definition's new one in the same files
EARLIER = [
    ("./crates/whole/proofs/", "told_of", "told_right"),
    ("./crates/controller/proofs/Settle", "told_of", "told_settles"),
    ("./crates/whole/proofs/Closing", "due_in", "due_says"),
    ("./crates/server/proofs/", "all_left", "all_gone"),
]


def texts(root):
    for folder, dirs, files in os.walk(os.path.join(root, "crates")):
        dirs[:] = sorted(d for d in dirs if d != "out")
        for f in sorted(files):
            if f.endswith((".antt", ".rt")):
                yield os.path.join(folder, f)


def snake(name):
    name = re.sub(r"(?<=[a-z0-9'])([A-Z])", lambda m: "_" + m.group(1).lower(), name)
    return name.replace("-", "_")


def camel(name):
    first, *rest = name.split("-")
    return first + "".join(w[:1].upper() + w[1:] for w in rest)


def turned(name):
    if name in OTHERS:
        return OTHERS[name]
    if not re.match(r"[A-Za-z][A-Za-z0-9'₀-₉-]*$", name):
        return name
    return camel(name) if name[0].isupper() else snake(name)


def code(line, mark):
    """The line's code and its comment."""
    at = line.find(mark)
    if at > 0 and mark == "--" and line[at - 1] not in " \t({,":
        at = -1
    return (line, "") if at < 0 else (line[:at], line[at:])


def declared(paths):
    names = collections.Counter()
    for p in paths:
        if p.endswith(".rt"):
            continue
        for line in open(p, encoding="utf-8"):
            m = HEAD.match(line) or FIELD.match(line)
            if os.path.basename(p) in MADE and ("goal." in line or "need." in line or "given." in line):
                continue
            if m and not m.group(1).startswith(("use", "mod", "--")):
                names[m.group(1)] += 1
    return names


def main():
    check = "--check" in sys.argv
    root = "."
    paths = list(texts(root))
    for p in paths if not check else []:
        for front, old, new in EARLIER:
            if p.startswith(front) and p.endswith(".antt"):
                was = open(p, encoding="utf-8").read()
                now = re.sub(r"(?<![\w.'/-])" + old + r"(?![\w'-])", new, was)
                if now != was:
                    open(p, "w", encoding="utf-8").write(now)
    names = declared(paths)
    table = {n: turned(n) for n in names if turned(n) != n}
    words = {p: set(w for line in open(p, encoding="utf-8") for w in WORD.findall(code(line, "//" if p.endswith(".rt") else "--")[0])) for p in paths}
    seen = collections.defaultdict(set)
    for p, ws in words.items():
        for old, new in table.items():
            if new in ws and (old in ws or new in names):
                seen[old].add(p)
    by_new = collections.defaultdict(list)
    for old, new in table.items():
        by_new[new].append(old)
    for new, olds in sorted(by_new.items()):
        if len(olds) > 1:
            print("meets: two of ours:", new, olds)
    for old in sorted(seen):
        print("meets:", old, table[old], sorted(seen[old])[:4])
    if check:
        print(len(table), "names")
        return
    changed = 0
    docs = [os.path.join("docs", f) for f in os.listdir("docs") if f.endswith(".md") and not f.startswith("PORT")] + ["README.md"]
    for p in paths + docs:
        was = open(p, encoding="utf-8").read()
        if p.endswith(".md"):
            now = re.sub(r"`[^`\n]+`", lambda m: WORD.sub(lambda w: table.get(w.group(0).strip("`"), w.group(0).strip("`")).join(["`" if w.group(0).startswith("`") else "", "`" if w.group(0).endswith("`") and len(w.group(0)) > 1 else ""]), m.group(0)), was)
        else:
            mark = "//" if p.endswith(".rt") else "--"
            lines = []
            for line in was.split("\n"):
                front, comment = code(line, mark)
                lines.append(WORD.sub(lambda w: table.get(w.group(0), w.group(0)), front) + comment)
            now = "\n".join(lines)
        if now != was:
            changed += 1
            open(p, "w", encoding="utf-8").write(now)
    print(len(table), "names,", changed, "files")


main()
