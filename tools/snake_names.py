#!/usr/bin/env python3
"""Brings the repository's own names in definitions, lemmas and clauses to snake case: unitPrice and unit-price become unit_price.

Run once, right after the kit's port.py, at the top of the repository (or: snake_names.py FOLDER). What is named here: definitions, lemmas,
fields and constructors of crates/*/specs and crates/*/proofs. Types and modules keep their capitals, names from src/ and names that
Rattle makes keep their spelling. Where two names would fall together the lemma gets `_lem`. A second run changes nothing.
--check writes nothing, --table prints the names, old and new.
"""
import collections
import glob
import os
import re
import sys

words = [w for w in sys.argv[1:] if not w.startswith("--")]
os.chdir(words[0] if words else os.path.join(os.path.dirname(os.path.abspath(__file__)), ".."))
CHECK = "--check" in sys.argv
TOKEN = re.compile(r'[^\s(){}.;,@"«»\[\]|λ`]+')
DECLARED = re.compile(r"^(\s*)((?:(?:unfoldable|abbrev|pub|ruleset)\s+)*)(?:(record|data)\s+)?([^\s:(){}«»;,.|]+)((?:\s+(?:\([^)]*\)|\{[^}]*\}))*)\s*:(?=\s|$)")
# names that the check makes, or that the library's records have
MADE = re.compile(r"^(After|Then|Else|In|At|Joined|Start|Need|Exit|Loop)\b|^well-formed$|^type-inv$")


def read(path):
    with open(path, encoding="utf-8") as f:
        return f.read()


def pages():
    found = glob.glob("crates/*/specs/**/*.antt", recursive=True) + glob.glob("crates/*/proofs/*.antt")
    return sorted(found)


def proofs():
    found = glob.glob("crates/*/proofs/*/**/*.antt", recursive=True)
    return sorted(p for p in found if p not in set(pages()))


def sources():
    return sorted(glob.glob("crates/*/src/*.rt"))


def crates():
    return {p.split("/")[1] for p in glob.glob("crates/*/src")}


def declared(path):
    for line in read(path).split("\n"):
        if line.startswith(("use ", "--", "pub mod", "mod ")) or line.strip().startswith("--"):
            continue
        found = DECLARED.match(line)
        if found and found.group(4) not in ("let", "where", "do", "λ", "elim"):
            yield found.group(4), found.group(3), not found.group(1)


def lowered(name):
    name = re.sub(r"(?<=[a-z0-9])([A-Z])", lambda m: "_" + m.group(1).lower(), name)
    return name.replace("-", "_")


def wants(name):
    if not name[0].islower() or not re.fullmatch(r"[A-Za-z0-9_'-]+", name):
        return False
    return lowered(name) != name


# lemmas that already have the name to which a definition comes, and fields that would have an awkward one
CHOSEN = {"header_ok": "header_ok_lem", "free_of": "free_of_lem", "by-price": "in_price_order", "no-ask": "without_ask", "priceOr0": "price_or_0", "atLeast0": "at_least_0"}


def table():
    """{old: new} for all names; a lemma that would take a definition's name gets _lem."""
    names = collections.OrderedDict()
    for path in pages():
        for name, kind, top in declared(path):
            names.setdefault(name, set()).add(path)
    # helpers of one proof, but not the names of its goals
    found = {old: new for old, new in CHOSEN.items() if old in names and ("_" not in old or any(lowered(n) == old != n for n in names))}
    taken = set(names) - set(found) | set(found.values())
    for name in [n for n in names if wants(n) and "-" not in n] + [n for n in names if wants(n) and "-" in n]:
        if name in found:
            continue
        new = lowered(name)
        # two constructors or fields of this spelling, in pages that no file reads together
        if new in taken and new not in ("held_in", "too_short"):
            new += "_lem"
        if new in taken and new not in ("held_in", "too_short"):
            print("falls together: %s and %s" % (name, new))
        taken.add(new)
        found[name] = new
    return found


def imported(text):
    """Names that a file takes from elsewhere than this repository's crates."""
    own, other = set(), set()
    for whole, items in re.findall(r"use ((?:Rattle\.)?[\w.+'◌·-]+?)\.\{([^}]*)\}", text):
        head = whole.split(".")
        inside = head[0] == "Rattle" and len(head) > 1 and head[1] in crates() and "declared" not in head and "Tie" not in head and "Statement" not in head
        for item in items.split(","):
            name = item.strip().split(" as ")[0].strip().strip("«»")
            (own if inside else other).add(name)
    return own, other


def turned(text, names, strict):
    own, other = imported(text)
    local = {n for n in re.findall(r"(?m)^\s*(?:pub\s+)?([^\s:(){}]+) : ", text)} if strict else set()
    out, at = [], 0
    for m in TOKEN.finditer(text):
        word = m.group()
        new = names.get(word)
        if new is None or word in other:
            continue
        before = text[: m.start()][-12:]
        if before.endswith(("tie.", "goal.", "Lts.")):
            continue
        if strict and word not in own and not re.search(r"[a-z0-9][A-Z]", word):
            # in a proof a dashed word is a goal's name or a step's, unless the file imports it or it is a field behind a dot
            if not before.endswith(".") or word in MADE_FIELDS:
                continue
        out.append(text[at : m.start()])
        out.append(new)
        at = m.end()
    out.append(text[at:])
    return "".join(out)


MADE_FIELDS = {"type-inv", "well-formed"}


def in_rust(text, names):
    """Clauses and ghost use items alone."""
    camel = {n: new for n, new in names.items()}
    pieces = re.compile(r"ghost use [^;]*;|\b(?:requires|ensures)\*?\s*(?:\w+\s*)?\{|ghost\s*(?:\w+\s*:\s*)?\{|`[^`\n]*`")
    out, at = [], 0
    while True:
        m = pieces.search(text, at)
        if not m:
            break
        end = m.end()
        if m.group().endswith("{"):
            deep, end = 1, m.end()
            while deep:
                deep += {"{": 1, "}": -1}.get(text[end], 0)
                end += 1
        out.append(text[at : m.start()])
        piece = text[m.start() : end]
        out.append(TOKEN.sub(lambda t: camel.get(t.group(), t.group()), piece))
        at = end
    out.append(text[at:])
    return "".join(out)


def main():
    names = table()
    if "--table" in sys.argv:
        for old, new in names.items():
            print(old, new)
        return
    changed = 0
    for path in pages() + proofs() + sources():
        old = read(path)
        if path.endswith(".rt"):
            new = in_rust(old, names)
        else:
            new = turned(old, names, path not in PAGES)
        if new != old:
            changed += 1
            if not CHECK:
                with open(path, "w", encoding="utf-8") as f:
                    f.write(new)
    spans = re.compile(r"`[^`\n]*`")
    for path in glob.glob("crates/*/must-fail/*.edit") + ["README.md"] + glob.glob("docs/*.md"):
        old = read(path)
        camel = {n: new for n, new in names.items() if path.endswith(".md") or "-" not in n}
        swap = lambda text: TOKEN.sub(lambda t: camel.get(t.group(), t.group()), text)
        new = swap(old) if path.endswith(".edit") else spans.sub(lambda m: swap(m.group()), old)
        if new != old:
            changed += 1
            if not CHECK:
                with open(path, "w", encoding="utf-8") as f:
                    f.write(new)
    print("%d names, %d files changed" % (len(names), changed))


PAGES = set(pages())
if __name__ == "__main__":
    main()
