#!/usr/bin/env python3
"""Lists imports that a file does not use or has twice, in the .antt and .rt files of crates/. Exit status 1 if there are any."""
import pathlib
import re
import sys

USE = re.compile(r"^(?:ghost )?use (\S+?)(?:\.\{(.*)\}| as (\S+?))?;?$")


def words(text: str) -> set[str]:
    """Every word of the code: names, parts of dotted paths, and operators."""
    code = re.sub(r"--.*|//.*", "", text)
    found = set(re.split(r"[\s(){}\[\],;⌜⌝⟦⟧]+", code))
    for word in list(found):
        found.update(word.split("."))
        found.update(re.findall(r"\w+", word))
    return found


def lines_of(text: str) -> list[str]:
    """The lines, with an import that goes on over several as one."""
    lines, opened = [], False
    for line in text.split("\n"):
        if opened:
            lines[-1] += " " + line.strip()
        else:
            lines.append(line)
        opened = lines[-1].startswith(("use ", "ghost use ")) and lines[-1].count("{") > lines[-1].count("}")
    return lines


def unused(path: pathlib.Path) -> list[str]:
    text = path.read_text()
    lines = lines_of(text)
    imports = [(USE.match(line), line) for line in lines]
    body = words("\n".join(line for match, line in imports if not match))
    missing = []
    for match, _ in imports:
        if not match or (path.suffix == ".rt" and not match.group(2) and "::" not in match.group(1)):
            continue
        module, names, alias = match.groups()
        if names is not None:
            wanted = [name.split(" as ")[-1].strip() for name in names.split(",")]
        else:
            wanted = [alias or re.split(r"::|\.", module)[-1]]
        missing += [name for name in wanted if not used(name, body, text)]
    return missing


def doubled(path: pathlib.Path) -> list[str]:
    imports = [line for line in lines_of(path.read_text()) if USE.match(line)]
    return sorted({line for line in imports if imports.count(line) > 1})


def used(name: str, body: set[str], text: str) -> bool:
    """Whether a name is in the code; of an operator, as ◌+◌, all its words."""
    if name == "[]":
        return text.count("[]") > 1
    if name in ("◌>>=◌", "◌>>◌"):  # what a `do` block stands for
        return "do" in body
    return name in body or all(word in body for word in name.split("◌") if word)


def main() -> int:
    bad = 0
    for path in sorted(pathlib.Path("crates").rglob("*")):
        if "out" in path.parts:  # made by rt
            continue
        if path.suffix in (".antt", ".rt"):
            for name in unused(path):
                print(f"{path}: {name} is not used")
                bad = 1
            for line in doubled(path):
                print(f"{path}: {line} stands twice")
                bad = 1
    return bad


sys.exit(main())
