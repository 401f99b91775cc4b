#!/usr/bin/env python3
"""The places that docs/DESIGN-PASS.md counts, point by point: tools/design_count.py [--at COMMIT] [--list].
With --list each place is printed below its count. Counted by text: what is found is a place to look at."""
import argparse, re, subprocess, sys
from pathlib import Path

ROOT = Path(__file__).resolve().parent.parent
BY_HAND = (
    "at16 wide entry size narrow number larger least most lower further plus set copy copy32 copy_row sum_at digit_of "
    "bytes numbers front starts before after less"
).split()


def git(*words):
    return subprocess.run(["git", "-C", str(ROOT), *words], capture_output=True, text=True, check=True).stdout


def sources(commit, ending):
    if commit:
        names = [n for n in git("ls-tree", "-r", "--name-only", commit, "crates").splitlines() if n.endswith(ending)]
        return {n: git("show", f"{commit}:{n}") for n in names}
    names = [n for n in git("ls-files", "--cached", "--others", "--exclude-standard", "crates").splitlines() if n.endswith(ending)]
    return {n: (ROOT / n).read_text() for n in names if (ROOT / n).exists()}


def functions(text):
    """Each function: its name, the comment above, parameters, result, clauses and body."""
    for m in re.finditer(r"((?:^[ \t]*//[^\n]*\n|^[ \t]*#\[[^\n]*\n)*)^[ \t]*(?:pub(?:\([a-z]+\))? )?(?:extern \"C\" )?fn (\w+)(?:<[^>(]*>)?\(", text, re.M):
        depth, i = 1, m.end()
        while depth:
            depth += {"(": 1, ")": -1}.get(text[i], 0)
            i += 1
        params = text[m.end():i - 1]
        b = re.compile(r"^\s*\{$|\{$", re.M).search(text, i)
        head = text[i:b.start()] if b else text[i:]
        # the body ends at the first line that closes at the function's own indent
        indent = re.match(r"[ \t]*", text[text.rfind("\n", 0, m.start(2)) + 1:]).group()
        e = re.compile("^" + indent + r"\}", re.M).search(text, b.end() if b else i)
        body = text[b.end():e.start()] if b and e else ""
        yield m.group(2), m.group(1), params, head, body, text.count("\n", 0, m.start(2)) + 1


def parameters(params):
    depth, parts, last = 0, [], 0
    for i, c in enumerate(params):
        depth += {"(": 1, "[": 1, "<": 1, ")": -1, "]": -1, ">": -1}.get(c, 0)
        if c == "," and depth == 0:
            parts.append(params[last:i])
            last = i + 1
    parts.append(params[last:])
    return [" ".join(p.split()) for p in parts if p.strip()]


def loops(body):
    """Each `while`, with whether its own variable counts by one."""
    for m in re.finditer(r"^([ \t]*)while ([^\n]*) \{\n(.*?)^\1\}", body, re.M | re.S):
        names = set(re.findall(r"\b[a-z]\w*\b", m.group(2)))
        counted = any(re.search(rf"\b{n} [+-]= ", m.group(3)) for n in names)
        yield m.group(2), counted


def clauses(head):
    for m in re.finditer(r"^\s*(?:requires|ensures)(?: \w+)? \{(.*)\}\s*$", head, re.M):
        yield " ".join(m.group(1).split())


def main():
    ask = argparse.ArgumentParser()
    ask.add_argument("--at")
    ask.add_argument("--list", action="store_true")
    a = ask.parse_args()
    src = {n: t for n, t in sources(a.at, ".rt").items() if "/src/" in n}
    found = {}

    def place(point, where):
        found.setdefault(point, []).append(where)

    repeated = {}
    for name, text in sorted(src.items()):
        short = name.removeprefix("crates/").replace("/src/lib.rt", "").replace("/src/", "/").removesuffix(".rt")
        for m in re.finditer(r"^(?:pub )?enum (\w+)[^{]*\{(.*?)^\}", text, re.M | re.S):
            if "(" in m.group(2):
                place("1a own enums whose cases hold values", f"{short}::{m.group(1)}")
        for fn, comment, params, head, body, line in functions(text):
            here = f"{short}::{fn}"
            ps = parameters(params)
            if any(re.match(r"(number|letter): (usize|u32|u8)$", p) for p in ps):
                place("1b a refusal or a kind as a number", here)
            if re.search(r"\bor (how many|512|g|j|m|k|0|one past|65,535)\b", comment) and re.search(r"-> (usize|u16|u32)\b", head):
                place("1c a result that says none by a number", here)
            for test, counted in loops(body):
                place("3a loops that count by hand" if counted else "3b other `while` loops", f"{here}: while {test}")
            if fn in BY_HAND:
                place("4a helpers for conversion, order, copying", here)
            for m in re.finditer(r"\bas (usize|u64|u32)\b|folds::(wide|at16)|line_forms::size", body):
                place("4b conversions written as casts or by such helpers", f"{here}: {m.group()}")
            if len([p for p in ps if p]) >= 8:
                place("5a functions of eight or more parameters", f"{here} ({len(ps)})")
            for c in set(clauses(head)):
                if "requires" in head:
                    repeated.setdefault(c, set()).add(here)
            for m in re.finditer(r"\bmatch (number|letter|what)\b|letter == b'", body):
                place("7 switches on a number or a letter", f"{here}: {m.group()}")
    for c, where in sorted(repeated.items(), key=lambda x: -len(x[1])):
        if len(where) >= 3:
            place("5b clauses that stand in three or more contracts", f"{len(where)} x {c}")
    proofs = {n: t for n, t in sources(a.at, ".antt").items() if "/proofs/" in n}
    answers = sum(len(re.findall(r"^pub [\w-]+ : goal\.", t, re.M)) for n, t in proofs.items() if n.endswith("Answers.antt"))
    print(f"8  lines in proofs/: {sum(t.count(chr(10)) for t in proofs.values())}; answers: {answers}; files: {len(proofs)}")
    print(f"   lines in src/: {sum(t.count(chr(10)) for t in src.values())}")
    for point in sorted(found):
        print(f"{point}: {len(found[point])}")
        if a.list:
            print("\n".join("    " + w for w in found[point]))
    return 0


sys.exit(main())
