#!/usr/bin/env python3
"""Brings the repository's own antt names to today's spelling: a term in camelCase (isDigit, length-bytesOf, a module's alias cardField) becomes snake_case
(is_digit, length-bytes_of, card_field), and a prime an apostrophe. A dash stays a dash; a part that begins with a capital (Wrote, as-ContactId, walk_Meets) stays.

usage: python3 tools/respell.py [--list] [--dry] [--also FILE..]      at the repository's top; a second run changes nothing
       --list   what was renamed, with counts, and what stays in camelCase    --dry   writes nothing
       --also   renames the whole words in these files too (edits, documents), as in comments

Reads crates/*/specs and proofs (*.antt), and crates/*/src/*.rt: there only `ghost use`, the clauses of requires, ensures and ghost, and comments change.
Only a name that the repository itself declares is renamed: none that a `use` takes from the kit's libraries, none that Rattle makes, none of Rust.
A new name that something in one of its files has already would hide or be hidden: it gets a name of INSTEAD, or stays (a line `falls together:` says so).
"""
import glob
import os
import re
import sys

# a camelCase name -> its new name, where plain snake_case would fall together with another name in scope
INSTEAD = {
    "amongNext": "next_among",
    "stopsAt": "is_stop_at",
}
# a file -> what in it gives way to a definition's new name: a lemma of the file's own that had it gets _lem
GIVES_WAY = {
    "crates/ascii/proofs/Decimals.antt": {"goesOn": ("goes_on", "goes_on_lem")},
    "crates/calls_step/proofs/Covering.antt": {"leftAs": ("left_as", "left_as_lem")},
    "crates/calls_step/proofs/Omitted.antt": {"readSame": ("read_same", "read_same_lem")},
    "crates/numbers/proofs/Decimal.antt": {"isDigit": ("is_digit", "is_digit_lem")},
    "crates/numbers/proofs/Sets.antt": {"noneAbove": ("none_above", "none_above_lem")},
    "crates/restore_across/proofs/Steps.antt": {"inOrder": ("in_order", "in_order_lem")},
    "crates/rows/proofs/Meets.antt": {"noneAbove": ("none_above", "none_above_lem")},
    "crates/store/proofs/Accepted.antt": {"inOrder": ("in_order", "in_order_lem")},
}
# words that are no names
RESERVED = set("data record deriving module where use mod pub package open as unfoldable abbrev axiom unfold unfolding ruleset mutual infix infixl infixr elim let in do "
               "Type coe fcoe tcoe hcom com ground assumption search grind simp omega cc rw hlevel old new now result".split())

WORD = re.compile(r"[^\s(){}\[\],;:.\"`\\λ→×@]+")
IN_TEXT = re.compile(r"(?<![\w'′-])[^\W\d_][\w-]*(?<!-)[′]*(?![\w′])")


def turn(name):
    """The name in today's spelling; itself where it has it."""
    def part(p):
        if not re.match(r"[a-z]", p):
            return p
        return re.sub(r"(?<=[a-z0-9])(?=[A-Z])|(?<=[A-Z])(?=[A-Z][a-z])", "_", p).lower()
    return "".join(part(p) for p in re.split(r"([-_])", name)).replace("′", "'")


def spelled_old(name):
    return turn(name) != name


def code_and_comments(text, mark):
    """Pieces (is_comment, text) of a file; a comment runs to its line's end."""
    at, out = 0, []
    for m in re.finditer(r"\"(?:\\.|[^\"\\\n])*\"|" + (r"b?'(?:\\.|[^'\\\n])'|" if mark == "//" else "") + (r"--(?=[\s-]|$)" if mark == "--" else mark) + r"[^\n]*", text, re.M):
        if m[0].startswith(mark):
            out += [(False, text[at:m.start()]), (True, m[0])]
            at = m.end()
    return out + [(False, text[at:])]


def clause_spans(code):
    """Where a .rt file's code is antt: after `ghost use`, and in the braces of requires, ensures and ghost."""
    spans = [(m.start(), m.end()) for m in re.finditer(r"\bghost use [^;]*;", code)]
    for m in re.finditer(r"\b(?:requires|ensures|ghost)\b(?!\s+use\b)[^{};]*\{", code):
        depth, i = 1, m.end()
        while i < len(code) and depth:
            depth += {"{": 1, "}": -1}.get(code[i], 0)
            i += 1
        spans.append((m.end(), i))
    return spans


def bare(code):
    """The words of antt that do not stand behind a dot, and with their owners those that do."""
    plain, dotted, before = set(), set(), ""
    code = re.sub(r"\buse [^\s{};]+", "", code)
    # a record's label is no name in scope
    code = re.sub(r"([{;]\s*)[^\s{};]+(?= =\s)", r"\1", code)
    for m in WORD.finditer(code):
        if m.start() and m.string[m.start() - 1] == ".":
            dotted.add((before, m[0]))
        else:
            plain.add(m[0])
        before = m[0]
    return plain, dotted


def parameters(code):
    """The parameters of a .rt file's functions: a clause reads them first. A function's own name hides nothing, and no clause sees a local or, without its owner, a field."""
    names = set()
    for m in re.finditer(r"\bfn \w+[^(){};]*\(", code):
        depth, i = 1, m.end()
        while i < len(code) and depth:
            depth += {"(": 1, ")": -1}.get(code[i], 0)
            i += 1
        names.update(re.findall(r"(\w+)\s*:(?!:)", code[m.end():i]))
    return names


def declared(code):
    names = set()
    for m in re.finditer(r"^[ \t]*(?:module _[^\n]*?where[ \t]+)?((?:(?:abbrev|unfoldable|pub|axiom) )*)((?:[^\s(){}\[\],;:.\"λ]+ )+):(?= |$)", code, re.M):
        names.update(m[2].split())
    names.update(m[1] for m in re.finditer(r"\buse [^\s{};]+ as ([^\s;{}]+)", code))
    for m in re.finditer(r"\buse [^\s{};]+\.\{([^}]*)\}", code):
        names.update(n.split(" as ")[1].strip() for n in m[1].split(",") if " as " in n)
    return names


def imported(code, own):
    """The names that come from modules that are not the repository's, and those that Rattle declares from Rust."""
    names = set()
    for m in re.finditer(r"\buse ([^\s{};]+)\.\{([^}]*)\}", code):
        path = m[1].split(".")
        if not (path[0] == "Rattle" and len(path) > 1 and path[1] in own) or "declared" in path or "contracts" in path:
            names.update(n.split(" as ")[0].strip() for n in m[2].split(","))
    return names


def main(argv):
    also = argv[argv.index("--also") + 1:] if "--also" in argv else []
    if not os.path.isfile("crates.txt"):
        sys.exit("respell: run it at the repository's top")
    with open("crates.txt", encoding="utf-8") as f:
        own = {l.split(":")[0].strip() for l in f if ":" in l and not l.startswith("#")}
    paths = sorted(p for k in ("src/**/*.rt", "specs/**/*.antt", "proofs/**/*.antt") for p in glob.glob("crates/*/" + k, recursive=True))
    texts, pieces, codes = {}, {}, {}
    for p in paths:
        with open(p, encoding="utf-8", newline="") as f:
            texts[p] = f.read()
        pieces[p] = code_and_comments(texts[p], "//" if p.endswith(".rt") else "--")
        # comments as blanks, so that places agree
        codes[p] = "".join(" " * len(t) if c else t for c, t in pieces[p])
    mine, theirs = set(), set()
    for p in paths:
        if p.endswith(".antt"):
            mine |= declared(codes[p])
        theirs |= imported(codes[p], own)
    names = {n: INSTEAD.get(n) or turn(n) for n in sorted(mine - theirs) if spelled_old(n)}
    kept = {n: "a library's or Rattle's" for n in sorted(mine & theirs) if spelled_old(n)}

    # ---- what falls together
    clash, back, yielding = {}, {}, {}
    for n, to in names.items():
        back.setdefault(to, []).append(n)
        if to in RESERVED:
            clash.setdefault(n, []).append("reserved")
    for to, ns in back.items():
        for n in ns[1:]:
            clash.setdefault(n, []).append("own " + ns[0])
    for p in paths:
        if p.endswith(".rt"):
            at = clause_spans(codes[p])
            plain, dotted = bare(" ".join(codes[p][a:b] for a, b in at))
            plain |= parameters(codes[p])
        else:
            plain, dotted = bare(codes[p])
        for n, (other, way) in GIVES_WAY.get(p, {}).items():
            if n in plain and n in names and other in plain and way not in plain:
                plain.discard(other)
                yielding.setdefault(p, {})[other] = way
        for n, to in names.items():
            if n in plain and to in plain or any((o, to) in dotted for o, d in dotted if d == n):
                clash.setdefault(n, []).append(p)
    for n in clash:
        kept[n] = "falls together with " + names[n] + " in " + ", ".join(clash[n][:3])
        del names[n]
    for p in list(yielding):
        yielding[p] = {o: w for o, w in yielding[p].items() if o in names.values()}

    counts = dict.fromkeys(names, 0)

    def swap(m):
        if m[0] in names:
            counts[m[0]] += 1
            return names[m[0]]
        return m[0]

    def give(m, p):
        """As swap, and what gives way does, where it is bare or the owner itself: not as a part of a path."""
        way = yielding.get(p, {}).get(m[0])
        return way if way and m.string[m.start() - 1:m.start()] != "." else swap(m)

    def comment(t):
        return IN_TEXT.sub(swap, t)

    changed = 0
    for p in paths:
        out, at, spans = [], 0, clause_spans(codes[p]) if p.endswith(".rt") else None
        for is_comment, t in pieces[p]:
            if is_comment:
                out.append(comment(t))
            elif spans is None:
                out.append(WORD.sub(lambda m: give(m, p), t))
            else:
                out.append(WORD.sub(lambda m: swap(m) if any(a <= at + m.start() < b for a, b in spans) else m[0], t))
            at += len(t)
        new = "".join(out)
        if new != texts[p]:
            changed += 1
            if "--dry" not in argv:
                with open(p, "w", encoding="utf-8", newline="") as f:
                    f.write(new)
    for p in also:
        with open(p, encoding="utf-8", newline="") as f:
            t = f.read()
        new = comment(t)
        if new != t:
            changed += 1
            if "--dry" not in argv:
                with open(p, "w", encoding="utf-8", newline="") as f:
                    f.write(new)
    if "--list" in argv:
        for n in names:
            print(f"{counts[n]:6} {n} -> {names[n]}" + (" (instead of " + turn(n) + ")" if n in INSTEAD else ""))
    for p in sorted(yielding):
        for o, w in yielding[p].items():
            print(f"gives way: {o} is {w} in {p}")
    for n, why in sorted(kept.items()):
        print(f"falls together: {n} stays: {why}")
    print(f"respell: {len(names)} names, {sum(counts.values())} places, {changed} files; {len(kept)} names stay")


if __name__ == "__main__":
    main(sys.argv[1:])
