"""Counts the places of docs/DESIGN-PASS.md's eight points in crates/: `python3 tools/places.py [--list] [FOLDER]`. It reads sources and proofs as text, so what it
prints is where to look, and not a verdict: the page says of each kind what was changed and what was kept."""
import collections
import glob
import os
import re
import sys

SHOW = "--list" in sys.argv
FOLDERS = [a for a in sys.argv[1:] if not a.startswith("--")]
os.chdir(FOLDERS[0] if FOLDERS else os.path.join(os.path.dirname(os.path.abspath(__file__)), ".."))

SOURCES = sorted(glob.glob("crates/*/src/**/*.rt", recursive=True))
TEXT = {f: open(f).read() for f in SOURCES}
CODE = {f: re.sub(r"//.*", "", t) for f, t in TEXT.items()}
ANSWERS = sorted(glob.glob("crates/*/proofs/**/Answers.antt", recursive=True))
ABSENT = r"(Refused|Short|Absent|Nothing|Through|Going)\b"


def say(point, what, places):
    print(f"{point}  {what}: {len(places)}")
    if SHOW:
        for place in places:
            print("     ", place)


def named(pattern, texts=CODE):
    return [f"{f.split('/')[1]}: {' '.join(m.group(0).split())}" for f, t in texts.items() for m in re.finditer(pattern, t, re.M)]


def enums():
    for f, t in CODE.items():
        for m in re.finditer(r"enum (\w+) \{\n(.*?)\n\}", t, re.S):
            yield f.split("/")[1], m.group(1), [v.strip() for v in m.group(2).split("\n") if v.strip()]


def functions():
    for f, t in CODE.items():
        for m in re.finditer(r"^( *)(?:pub )?(?:extern \"C\" )?fn (\w+)(.*?)^\1\{\n(.*?)^\1\}", t, re.S | re.M):
            yield f.split("/")[1], m.group(2), m.group(3), m.group(4)


def outline(body):
    """A body without its names, numbers and layout."""
    body = re.sub(r"\b(let|mut|if|else|while|for|in|return|match|as|self|Self|true|false)\b", r"<\1>", body)
    return re.sub(r"\s+", " ", re.sub(r"(?<!<)\b[A-Za-z_0-9]+\b(?!>)", "_", body))


# 1
say(1, "enums of two variants, one of them an absence or a refusal", [f"{c}: {n}" for c, n, vs in enums() if len(vs) == 2 and any(re.match(ABSENT, v) for v in vs)])
say(1, "enums of more variants with such a one", [f"{c}: {n}" for c, n, vs in enums() if len(vs) > 2 and any(re.match(ABSENT + r"|No\(", v) for v in vs)])
say(1, "functions that name a refusal", named(r"fn \w*refusal\("))
say(1, "structs with a verdict or a flag beside a value", named(r"^    (?:pub )?(verdict: Verdict|found: bool|known: bool|present: bool|pending: bool|passed: bool),"))
say(1, "constants that number kinds, phases, commands, tags and questions", named(r"^(?:pub )?const [A-Z0-9_]+: u(?:8|32|64) = \d+;"))
# 2
groups = collections.defaultdict(list)
for crate, name, head, body in functions():
    if len(outline(body)) > 40:
        groups[outline(body)].append(f"{crate}::{name}")
say(2, "groups of functions with one outline", [", ".join(g) for g in groups.values() if len(g) > 1])
say(2, "functions in them", [n for g in groups.values() if len(g) > 1 for n in g])
# 3
say(3, "while loops", named(r"^ *while .*\{"))
say(3, "of these with an index by hand", [f"{c}::{n}" for c, n, _, b in functions() if re.search(r"\bwhile\b", b) and re.search(r"\b(\w+) (\+= 1|-= 1|= \1 \+ 1|= \1 - 1);", b)])
# 4
say(4, "conversions by hand: small functions between bytes, flags, widths and enums", named(r"fn (\w+_byte|flag|bit|wide|index|in_full|is_some|lower|higher|earlier|sum|of_line|of_row|length_or|zero_or|found)\("))
say(4, "casts by `as`", named(r"\bas (u8|u16|u32|u64|usize)\b"))
say(4, "plain types without PartialEq", [f"{c}" for f, t in TEXT.items() for c in re.findall(r"#\[derive\(([^)]*)\)\]\n(?:pub )?(?:struct|enum)", t) if "PartialEq" not in c])
# 5
heads = [(c, n, h.split("ensures")[0]) for c, n, h, _ in functions()]
say(5, "functions with the five lent lists as parameters", [f"{c}::{n}" for c, n, h in heads if all(re.search(rf"\b{p}: &", h) for p in ("chains", "skipped", "above", "unacked", "expired"))])
say(5, "functions with a contiguous, a list and a count", [f"{c}::{n}" for c, n, h in heads if re.search(r"contiguous: u32", h) and re.search(r"above: &", h)])
say(5, "functions with a run and its entries", [f"{c}::{n}" for c, n, h in heads if re.search(r"run: &\[u8\]", h) and re.search(r"entries: &\[Entry\]", h)])
clauses = collections.Counter(" ".join(m.split()) for t in CODE.values() for m in re.findall(r"requires \{ (.*?) \}\n", t))
say(5, "facts required by three functions or more", [f"{n} x {c}" for c, n in clauses.items() if n >= 3])
# 6
say(6, "functions with a list and its count", [f"{c}::{n}" for c, n, h in heads if re.search(r"(above|list|lent|records|numbers|unacked): &(mut )?\[", h) and re.search(r"\b(count|held|n): usize", h)])
say(6, "searches by halves", [f"{c}::{n}" for c, n, _, b in functions() if re.search(r"\blow < high\b", b)])
say(6, "local buffers", named(r"let (mut )?\w+(: \[[^\]]+\])? = \[[^;\]]+; [A-Z0-9_]+\];"))
# 7
say(7, "matches on a kind, a phase or a round", named(r"match (kind|s\.phase|phase|round|code|e\.kind|command)\b"))
# 8
lines = {f: open(f).read().count("\n") for f in ANSWERS}
print(f"8  files of answers: {len(ANSWERS)}, with {sum(lines.values())} lines")
repeated = []
for f in ANSWERS:
    n = sum(k - 1 for line, k in collections.Counter(x.strip() for x in open(f) if x.strip().startswith("let ")).items() if k > 1)
    if n >= 3:
        repeated.append(f"{f}: {n}")
say(8, "of these with three or more steps that stand there already", repeated)
