#!/usr/bin/env python3
"""Brings the names of definitions and lemmas to one spelling: types in camel case, all else in snake case, a dash where two names are joined.

usage: tools/respell.py [--check] [--table FILE]      at the top of the repository, once, straight after /opt/rattle/port/port.py

It reads what crates/*/specs and crates/*/proofs declared in LANDED, and writes each name anew wherever it stands in them and in src/: in code only the ghost
parts have such names. Strings stay, and so do the labels behind a dot of a proof that walks the code, which Rattle makes. Where port.py let a definition and a
lemma fall together, the file as it was in LANDED says which of them is meant, and the lemma gets '_lem'.
--check prints what falls together and writes nothing; --table FILE writes the table: name in LANDED, tab, name now.
"""
import collections
import os
import re
import subprocess
import sys

LANDED = "9b6ba2a99a6692767c1d276e6e63a2284beffa4d"
W = r"[^\s(){}.;,@\"«»\[\]\\]+"
TOKEN = re.compile(r"--[^\n]*|//[^\n]*|\"(?:[^\"\\]|\\.)*\"|" + W)
DECLARED = re.compile(r"^(\s*)(?:(?:pattern|unfoldable|abbrev|pub|axiom) )*(" + W + r")((?: " + W + r")*) :(?= |$)(.*)")
NAMED = re.compile(r"^\s*(?:pub )?(?:data|record|ruleset) (" + W + r")")
# words of the kit that lemmas are named by
WORDS = set("length append take drop map sets set get_or add sub mul div mod pow xor reverse replicate suc min max list cond".split())


def key(name):
    return re.sub("[-_′']", "", name.replace("getD", "get_or")).lower()


def tree():
    """The files of LANDED and their texts."""
    named = subprocess.run(["git", "ls-tree", "-r", "--name-only", LANDED, "crates"], capture_output=True, text=True, check=True).stdout.split("\n")
    named = [p for p in named if p.endswith((".antt", ".rt"))]
    wanted = "".join(LANDED + ":" + p + "\n" for p in named)
    out = subprocess.run(["git", "cat-file", "--batch"], input=wanted.encode(), capture_output=True, check=True).stdout
    texts, at = {}, 0
    for p in named:
        end = out.index(b"\n", at)
        size = int(out[at:end].split()[2])
        texts[p] = out[end + 1 : end + 1 + size].decode()
        at = end + 2 + size
    return texts


def snake(name):
    name = name.replace("getD", "get_or").replace("′", "'")
    return re.sub(r"(?<=[a-z0-9])([A-Z])", lambda m: "_" + m.group(1).lower(), name)


def declared(texts):
    """Each name that the crates declare, and whether in specs/."""
    found = {}
    for path, text in texts.items():
        if not path.endswith(".antt"):
            continue
        for line in text.splitlines():
            if line.lstrip().startswith("--"):
                continue
            m = DECLARED.match(line)
            if m and "tie.Need-" not in line and "=" not in line.split(" :")[0] and "λ" not in line.split(" :")[0]:
                for name in (m.group(2) + m.group(3)).split():
                    found[name] = found.get(name, False) or "/specs/" in path
            m = NAMED.match(line)
            if m:
                found[m.group(1)] = found.get(m.group(1), False) or "/specs/" in path
    return found


# a function into Type is a type
TYPES = {"lies": "Lies"}
# the library's, and spelled so by it
KEPT = {"and-true", "mul-one", "zero-add"}


def respelled(name, words, functions):
    if name in TYPES or name in KEPT:
        return TYPES.get(name, name)
    # the law of one result of a function has the function's name as the source spells it
    if name.endswith("-one") and snake(name[:-4]).replace("-", "_") in functions:
        return snake(name).replace("-", "_")
    if "_" in name and not re.fullmatch("[A-Za-z]+", name[0]) or not re.search(r"[A-Za-z]", name):
        return name
    if name[0].isupper() and "-" not in name:
        return name
    parts = [part if part[:1].isupper() else snake(part) for part in name.split("-")]
    if "" in parts:
        return name
    out = parts[0]
    for before, after in zip(parts, parts[1:]):
        joined = (before in words and after in words) or (before[:1].isupper() and before == parts[0])
        out += ("-" if joined else "_") + after
    return out


def tokens(text):
    return [t for t in TOKEN.findall(text) if not t.startswith(("--", "//", '"'))]


def main():
    texts = tree()
    now = {}
    for path in texts:
        if os.path.exists(path):
            with open(path, encoding="utf-8") as f:
                now[path] = f.read()
    found = declared(texts)
    words = WORDS | {snake(n) for n, spec in found.items() if spec and "-" not in n}
    functions = {f for path, text in texts.items() if path.endswith(".rt") for f in re.findall(r"\bfn (\w+)", text)}
    present = set()
    for text in now.values():
        present.update(tokens(text))
    # what port.py made of each name: itself, or the one spelling of the library's
    before = set()
    for text in texts.values():
        before.update(tokens(text))
    by_key = collections.defaultdict(list)
    for t in present - before:
        by_key[key(t)].append(t)
    ported = {}
    for name in found:
        if name in present:
            ported[name] = name
        else:
            new = [t for t in by_key[key(name)] if t.replace("-", "_") == snake(name).replace("-", "_")]
            ported[name] = new[0] if len(new) == 1 else name
    table = {}
    for name in found:
        # a library's name keeps the library's spelling
        table[name] = ported[name] if ported[name] != name else respelled(name, words, functions)
    groups = collections.defaultdict(list)
    for name, new in table.items():
        groups[new.replace("-", "_")].append(name)
    together = 0
    for new, olds in sorted(groups.items()):
        if len(olds) > 1:
            olds.sort(key=lambda n: (not found[n], "-" in n))
            together += 1
            print("together:", new, "<-", " ".join(olds))
            for old in olds[1:]:
                table[old] = new + "_lem"
    if "--table" in sys.argv:
        with open(sys.argv[sys.argv.index("--table") + 1], "w", encoding="utf-8") as f:
            for old, new in sorted(table.items()):
                if old != new:
                    f.write(old + "\t" + new + "\n")
    print("names:", sum(old != new for old, new in table.items()), "together:", together)
    origin = collections.defaultdict(list)
    for name, new in ported.items():
        origin[new].append(name)
    ticked = re.compile("`[^`\n]*`")
    for path, text in now.items():
        old = texts[path]
        order = tokens(old)
        counts, queues = {}, {}
        for t, names in origin.items():
            if len(names) > 1:
                seen = [o for o in order if o in names]
                have = [o for o in tokens(text) if o == t]
                if len(seen) == len(have):
                    queues[t] = seen
                elif len(set(seen)) == 1:
                    queues[t] = [seen[0]] * len(have)
                elif have:
                    queues[t] = None
                    print("count:", path, t, seen, len(have))
        walked = path.endswith("/Proof.antt")

        def meant(t, at, whole):
            if t not in origin or (path.endswith(".rt") and not any(found[n] for n in origin[t])):
                return t
            if walked and is_step(whole, at):
                return t
            if len(origin[t]) == 1:
                return table[origin[t][0]]
            if queues.get(t):
                return table[queues[t].pop(0)]
            return t

        def is_step(whole, at):
            # behind a dot, on a path that begins at a goal's argument, stand names that Rattle makes
            start = at
            while start and not whole[start - 1].isspace() and whole[start - 1] not in "({[,;":
                start -= 1
            return start < at and whole[at - 1] == "." and re.match(r"[cdbsw]\.before|c\.", whole[start:])

        def turn(m):
            t = m.group(0)
            if t.startswith(("--", "//")):
                return ticked.sub(lambda c: "`" + re.sub(W.replace("`", ""), lambda x: spoken(x.group(0)), c.group(0)[1:-1]) + "`", t)
            if t.startswith('"'):
                return t
            return meant(t, m.start(), m.string)

        def spoken(t):
            names = [n for n in found if n == t] or origin.get(t, [])
            return table[names[0]] if names else t

        new = TOKEN.sub(turn, text)
        if new != text and "--check" not in sys.argv:
            with open(path, "w", encoding="utf-8") as f:
                f.write(new)


main()
