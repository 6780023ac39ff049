#!/usr/bin/env python3
"""Brings the repository's own definitions and lemmas to today's spelling: words in snake case, a dash between two names alone.

usage: tools/spell_names.py TOP     once, on a tree that port.py has just turned; --list prints the table and writes nothing

A name is turned where it is declared below specs/ or proofs/: capitals inside it become underscores, and a dash stays only
where a definition or a type stands on both sides of it. A lemma that would fall together with a definition ends in _lem.
Names that Rattle makes (the goals in a function's folder) are left alone. It reads and writes .antt files, the clauses and
`ghost use` items of .rt files, and the specifications' names in must-fail/*.edit.
"""

import collections
import os
import re
import sys

WORD = re.compile(r"[^\s(){}.;,@\"«»]+")
DECLARED = re.compile(
    r"(?m)^( *)((?:(?:abbrev|pub|unfoldable|pattern|data|record)\s+)*)([^\s(){}.;,@\"«»:]+)"
    r"((?: \{[^{}\n]*\}| \([^()\n]*\))*) :(?= |$)(.*)"
)
LISTS = set("length take drop append map replicate get_or set min max split_at cons nil reverse add mul sub le lt eq".split())
# Lemmas that port.py turned, and that a definition's new name would meet.
TURNED = set("kept_pieces nothing_left run_length starts_from sub_at".split())
# Arguments of definitions and lemmas, which no declaration names.
ARGUMENTS = (
    "hasHop hasContext hasData hasInfo causeValue causeType hasSsn hasId onTitle hasMode sourceValues destinationValues"
).split()


def files(top):
    for folder, below, names in os.walk(os.path.join(top, "crates")):
        below[:] = sorted(b for b in below if b != "out")
        yield from (os.path.join(folder, n) for n in sorted(names))


def snake(part):
    if part[:1].isupper():
        return part
    return re.sub(r"([a-z0-9])([A-Z])", lambda m: m[1] + "_" + m[2].lower(), part)


def names(top):
    declared, definitions = collections.OrderedDict(), set()
    for path in files(top):
        if not path.endswith(".antt"):
            continue
        of_function = path.endswith("Proof.antt")
        with open(path, encoding="utf-8") as f:
            text = f.read()
        for m in DECLARED.finditer(text):
            if of_function and re.match(r"\s*tie\.|.*\bstatement\b", m[5]):
                continue
            declared.setdefault(m[3], []).append(path)
            if ("/specs/" in path and not m[1]) or re.search("abbrev|unfoldable", m[2]):
                definitions.add(snake(m[3]))
    return declared, definitions


def spelled(name, definitions):
    parts = [snake(p) for p in name.split("-")]
    if not all(parts):
        return name
    stands = [p in definitions or p in LISTS or p[:1].isupper() for p in parts]
    out = parts[0]
    for i in range(1, len(parts)):
        out += ("-" if stands[i - 1] and stands[i] else "_") + parts[i]
    return out


def table(top):
    declared, definitions = names(top)
    new = {n: spelled(n, definitions) for n in declared}
    by_new = collections.defaultdict(list)
    for n in declared:
        by_new[new[n]].append(n)
    for n, olds in by_new.items():
        for old in olds if len(olds) > 1 else []:
            if "-" in old:
                new[old] = n + "_lem"
    new["on-title"] = "on_title_lem"
    new["has-title"] = "has_title_lem"
    for n in TURNED:
        new[n] = n + "_lem"
    for n in ARGUMENTS:
        new[n] = snake(n)
    return {o: n for o, n in new.items() if o != n}


def turned(text, rows, path):
    def one(m):
        word = m[0]
        new = rows.get(word)
        if new is None:
            return word
        behind_dot = m.start() > 0 and text[m.start() - 1] == "."
        if word in TURNED and (behind_dot or text[m.end() : m.end() + 1] == "."):
            return word
        if behind_dot and "-" in word and path.endswith("Proof.antt"):
            return word
        return new

    return WORD.sub(one, text)


def antt(text, rows, path):
    out = []
    for line in text.split("\n"):
        code, mark, comment = line, "", ""
        m = re.search(r"(^|\s)--(\s|$)", line)
        if m:
            code, comment = line[: m.start()], line[m.start() :]
            comment = re.sub(r"`([^`]+)`", lambda s: "`" + turned(s[1], rows, path) + "`", comment)
            comment = re.sub(r"\b[a-z]+[a-z0-9]*[A-Z]\w*", lambda s: rows.get(s[0], s[0]), comment)
        out.append(turned(code, rows, path) + comment)
    return "\n".join(out)


def main():
    top = sys.argv[-1]
    rows = table(top)
    if "--list" in sys.argv:
        print("".join(f"{o}\t{n}\n" for o, n in sorted(rows.items())), end="")
        return
    camel = {o: n for o, n in rows.items() if re.search(r"[a-z0-9][A-Z]", o)}
    count = 0
    for path in files(top):
        if not path.endswith((".antt", ".rt", ".edit")):
            continue
        with open(path, encoding="utf-8") as f:
            old = f.read()
        if path.endswith(".antt"):
            new = antt(old, rows, path)
        else:
            new = re.sub(r"(?<![\w\"'])[a-z]+[a-z0-9]*[A-Z]\w*", lambda m: camel.get(m[0], m[0]), old)
        if new != old:
            count += 1
            with open(path, "w", encoding="utf-8") as f:
                f.write(new)
    print(f"spell_names: {len(rows)} names, {count} files")


main()
