#!/usr/bin/env python3
"""Brings the repository's own definitions, fields and lemmas to today's spelling: words in snake case, types and facts in camel case.

usage: python3 tools/snake_names.py [--list]      at the top of the repository, once, right after port.py

A dash stays where it joins two names that the lemma's own statement has; a plain word is added with `_`. Functions of src/, exported names, strings, inputs and
outputs keep their names. Prints names that fall together, and changes nothing then.
"""
import os
import re
import sys

ID = r"[^\s(){}\[\],.;:⌜⌝λ→∷∙×⊎⊥≡≤<>+*/=∘⟨⟩←↦@?!|&\"`]+"
TOKEN = re.compile(ID)
# names that would fall together with another's
SAID = {
    "nextRow": "next_row_of",
    "place_at": "place_in_at",
    "placeAt": "place_at",
    "plain_word": "plain_word_lem",
    "rows_in": "rows_in_lem",
    "part-of": "part_of_lem",
    "row-of": "row_of",
    "countTo-step": "count_to_step",
    "sumTo-step": "sum_to_step",
    "firstTo-least": "first_to_least",
    "cut-from": "cut_from_lem",
    "own-moves": "own_moves_lem",
    "bad-line": "bad_line_lem",
    "next-in": "next_into",
    "kit-widths": "kit_widths",
}
# words of std that own lemmas are named after
STD = set("length take drop append get_or set replicate map sum max min reverse zip concat".split())
# a module that Rattle makes itself has this name
CONTRACTS = "Promises"


def files(*ends):
    for folder, dirs, names in os.walk("crates"):
        dirs[:] = sorted(d for d in dirs if d not in ("out", "target"))
        for n in sorted(names):
            if n.endswith(ends):
                yield os.path.join(folder, n)


def own_crates():
    return sorted(c for c in os.listdir("crates") if os.path.isdir(os.path.join("crates", c, "src")))


def snake(word):
    return re.sub(r"(?<=[a-z0-9])([A-Z])", lambda m: "_" + m.group(1).lower(), word)


DEF = re.compile(r"^(\s*)(?:(?:abbrev|unfoldable|pub|private)\s+)*(?!(?:use|open|module|mod)\s)([^\s(){}:]+)\s+:(?!:)")
# what goes on below the line of a signature
MORE = re.compile(r"\s*(→|×|≡)|\s{6}")
REC = re.compile(r"^\s*(?:(?:abbrev|unfoldable|pub|private)\s+)*(?:record|data)\s+(\S+)")
FN = re.compile(r"\bfn\s+([a-z_0-9]+)")


def defined():
    defs, lemmas, fields, said = set(), set(), set(), {}
    for p in files(".antt"):
        spec = "/specs/" in p
        lines = open(p, encoding="utf-8").read().split("\n")
        for at, line in enumerate(lines):
            m = REC.match(line)
            if m:
                continue
            m = DEF.match(line)
            if not m:
                continue
            name = m.group(2)
            if name.startswith(("invariant-", "decreases-", "--")):
                continue
            text, at = line.split(":", 1)[1], at + 1
            while at < len(lines) and MORE.match(lines[at]):
                text, at = text + " " + lines[at], at + 1
            said.setdefault(name, []).append({snake(w) for w in TOKEN.findall(text)})
            (defs if spec and not m.group(1) else fields if spec else lemmas).add(name)
    return defs, lemmas, fields, said


def main():
    crates = own_crates()
    defs, lemmas, fields, said = defined()
    functions = set()
    for p in files(".rt"):
        functions |= set(FN.findall(open(p, encoding="utf-8").read()))
    words = {snake(d) for d in defs if "-" not in d} | STD
    new = {}

    def name_of(n):
        if n in SAID:
            return SAID[n]
        if n.endswith("-spec"):
            return n.replace("-", "_")
        parts = [snake(w) if not w[:1].isupper() else w for w in n.split("-")]
        out = parts[0]
        for i in range(1, len(parts)):
            there = [w & words for w in said[n]]
            left = any("_".join(parts[a:i]) in w for a in range(i) for w in there)
            right = any("_".join(parts[i:b]) in w for b in range(i + 1, len(parts) + 1) for w in there)
            out += ("-" if left and right else "_") + parts[i]
        return out

    new.update(SAID)
    camel = {snake(d) for d in defs if snake(d) != d}
    for n in sorted(defs | lemmas | fields):
        if n in SAID:
            new[n] = SAID[n]
            continue
        if n[:1].isupper() or not re.search(r"[a-z0-9][A-Z]|-", n):
            continue
        if not re.search(r"[A-Za-z]", n):
            continue
        to = name_of(n)
        if n in lemmas and n not in defs and to in camel:
            to += "_lem"
        if to != n:
            new[n] = to
    # fall together
    bad = 0
    all_old = defs | lemmas | fields
    by = {}
    for n, to in new.items():
        by.setdefault(to, []).append(n)
    for to, ns in sorted(by.items()):
        ns = [n for n in ns if n in defs or n in lemmas]
        if len(ns) > 1 or to in all_old and to not in new and any(n in defs or n in lemmas for n in ns):
            print("falls together:", ns, "->", to, "(is there already)" if to in all_old else "")
            bad += 1
    for n in sorted(defs):
        if n in new and new[n] in functions:
            print("a function's name:", n, "->", new[n])
    tokens = {}
    for p in files(".antt"):
        for t in TOKEN.findall(open(p, encoding="utf-8").read()):
            tokens.setdefault(t, p)
    for n, to in sorted(new.items()):
        if to in tokens and to not in new:
            print("a word already:", n, "->", to, "in", tokens[to])
    if "--list" in sys.argv:
        for n in sorted(new):
            print(n, "->", new[n])
        return
    if bad and "--force" not in sys.argv:
        raise SystemExit(1)

    rust = {}
    for p in list(files(".antt", ".rt", ".edit")):
        text = open(p, encoding="utf-8").read()
        lib = set()
        for m in re.finditer(r"^\s*(?:ghost )?(?:pub )?use ([^\n{]+)\.\{([^}]*)\}", text, re.M):
            path = m.group(1)
            if not (path.startswith("Rattle.") and path.split(".")[1] in crates):
                lib |= {x.strip().split(" as ")[0].strip() for x in m.group(2).split(",")}

        def one(m):
            t = m.group(0)
            if t in lib:
                return t
            return new.get(t, t)

        if p.endswith(".rt"):
            lines = []
            for line in text.split("\n"):
                if re.match(r"\s*(ghost use|requires|ensures|//|ghost )", line) or "{ " in line and re.search(r"[≡≤→×]", line):
                    line = TOKEN.sub(one, line)
                lines.append(line)
            out = "\n".join(lines)
        elif p.endswith(".edit"):
            out = "\n".join(TOKEN.sub(one, l) if l.startswith(("old:", "new:")) and "specs/" in text else l for l in text.split("\n"))
        else:
            out = TOKEN.sub(one, text)
        out = re.sub(r"\b(Rattle\.(?:%s)\.specs\.)Contracts\b" % "|".join(crates), r"\1" + CONTRACTS, out)
        out = out.replace("file: specs/Contracts.antt", f"file: specs/{CONTRACTS}.antt")
        if p.endswith("specs/Lib.antt"):
            out = re.sub(r"^pub mod Contracts$", f"pub mod {CONTRACTS}", out, flags=re.M)
        if out != text:
            open(p, "w", encoding="utf-8").write(out)
    for c in crates:
        p = os.path.join("crates", c, "specs", "Contracts.antt")
        if os.path.exists(p):
            os.rename(p, os.path.join("crates", c, "specs", CONTRACTS + ".antt"))


main()
