#!/usr/bin/env python3
"""spell.py: brings the names that the crates' .antt files declare to one spelling, in place. It was run once, behind the toolchain's port.py.

Words are in snake case. A constructor and a field have underscores alone. In a lemma a dash stays where what stands before it is itself a name, as in
`take-over`. Aliases lose the dot and the `-as-` that joined them. Names of the code keep their spelling, and so do the labels that the check makes.
It prints old and new, one pair a line, into docs/PORT-NAMES.tsv, and stops where two names would fall together in one file.
"""
import collections
import os
import re
import sys

ROOT = os.path.dirname(os.path.dirname(os.path.abspath(__file__)))
TOKEN = re.compile(r"[^\s(){}.;,@\"«»`:=]+")
STD = set("length take drop get_or set append replicate map sum min max not cond".split())
# A lemma that would have the name of the definition that it speaks of, and two contexts that would have the name of a phase.
CHOSEN = {
    "inPage": "in_page_context",
    "inMotif": "in_motif_context",
    "due-before": "due_before_lem",
    "attributes-before": "attributes_before_lem",
    "whole_before": "whole_before_lem",
    "line_before": "line_before_lem",
    "scan_step": "scan_step_lem",
    "met_all": "met_all_lem",
    "is_known": "is_known_lem",
    "bit-or": "bit_or_lem",
    "case-of": "the_case",
    "place_after": "place_after_lem",
}
# Those of them that functions of the code are called too: they are turned in .antt files, and not in a path.
SHARED = {"whole_before", "line_before", "scan_step", "met_all", "is_known", "place_after"}
HEADS = re.compile(r"\b(?:tie|goal)\.$")


def files(ends):
    for folder, dirs, names in os.walk(os.path.join(ROOT, "crates")):
        dirs[:] = sorted(d for d in dirs if d != "out")
        for name in sorted(names):
            if name.endswith(ends):
                yield os.path.join(folder, name)


def declared():
    kinds = collections.defaultdict(set)
    for path in files(".antt"):
        if path.endswith("/Proof.antt"):
            continue
        mode, indent = None, 0
        for line in open(path, encoding="utf-8"):
            if re.match(r"\s*--", line):
                continue
            m = re.match(r"(\s*)(?:(?:pub|abbrev|unfoldable|mutual) )*(data|record) (\S+)", line)
            if m:
                kinds[m.group(3)].add("type")
                mode, indent = m.group(2), len(m.group(1))
                continue
            m = re.match(r"(\s*)(?:(?:pub|abbrev|unfoldable) )*([^\s(){}.;,@\"«»=]+) :(?: |$)", line)
            if m:
                if mode and len(m.group(1)) > indent:
                    kinds[m.group(2)].add("part")
                else:
                    mode = None
                    kinds[m.group(2)].add("def")
            elif line.strip() and not line.startswith(" "):
                mode = None
    return kinds


def snake(word):
    return re.sub(r"(?<=[a-z0-9₀-₉'])[A-Z]", lambda m: "_" + m[0].lower(), word)


def respelled(name, kinds, known):
    if name[0].isupper():
        return name
    parts = [snake(p) for p in name.split("-")]
    if "part" in kinds:
        return "_".join(parts)
    out = parts[0]
    for p in parts[1:]:
        out += ("-" if out in known else "_") + p
    return out


def alias(name):
    m = re.fullmatch(r"(\w+?)(?:·|-as-)(\w+)", name)
    if m:
        a, b = m.groups()
        return a[0].upper() + a[1:] + b if b[0].isupper() else snake(a[0].lower() + a[1:]) + "_" + snake(b)
    return "_".join(snake(p[0].lower() + p[1:]) for p in name.split("-"))


def main():
    kinds = declared()
    known = STD | {snake(n) for n in kinds if "-" not in n} | {n for n, k in kinds.items() if "type" in k}
    table = {n: respelled(n, k, known) for n, k in kinds.items()}
    for path in list(files(".antt")) + list(files(".rt")):
        for m in re.finditer(r" as ([^ ,};\n]*[·-][^ ,};\n]*)", open(path, encoding="utf-8").read()):
            if m.group(1) not in kinds:
                table[m.group(1)] = alias(m.group(1))
    table.update(CHOSEN)
    table = {a: b for a, b in table.items() if a != b}
    made = set()
    for path in files("Proof.antt"):
        made |= set(re.findall(r"tie\.Need-([^\s]+)", open(path, encoding="utf-8").read()))
    for name in sorted(made & set(table)):
        print("look: also a label of a proof:", name)
    bad = 0
    texts = {}
    for path in list(files(".antt")) + list(files(".rt")):
        text = open(path, encoding="utf-8").read()
        bare = re.sub(r"(?m)^\s*--.*$", "", text)
        tokens = {m.group(0) for m in TOKEN.finditer(bare) if bare[m.start() - 1 : m.start()] != "."}
        ours = set(TOKEN.findall(text))
        turned = {}
        for t in ours & set(table):
            turned.setdefault(table[t], set()).add(t)
        for new, olds in turned.items():
            if len(olds) > 1 or (new in tokens and new not in table and path.endswith(".antt")):
                print("fall together:", os.path.relpath(path, ROOT), new, sorted(olds))
                bad += 1
            elif new in tokens:
                print("look: stands in the code too:", os.path.relpath(path, ROOT), new)

        def turn(m):
            word = m.group(0)
            if HEADS.search(text[max(0, m.start() - 6) : m.start()]):
                return word
            if word in SHARED and (path.endswith(".rt") or text[m.start() - 1 : m.start()] == "."):
                return word
            return table.get(word, word)

        texts[path] = (text, TOKEN.sub(turn, text))
    if bad:
        print(bad, "names fall together: nothing was written")
        return 1
    if "--check" in sys.argv:
        print(len(table), "names")
        return 0
    for path, (old, new) in texts.items():
        if old != new:
            open(path, "w", encoding="utf-8").write(new)
    with open(os.path.join(ROOT, "docs", "PORT-NAMES.tsv"), "w", encoding="utf-8") as out:
        for a, b in sorted(table.items()):
            out.write(f"{a}\t{b}\n")
    print(len(table), "names")
    return 0


sys.exit(main())
