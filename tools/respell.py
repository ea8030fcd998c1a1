#!/usr/bin/env python3
"""Brings the names that this repository defines in specs/ and proofs/ to one spelling: words in snake case, with _ for each dash.

Run once at the top of the repository, after the toolchain's port.py. It gathers the names that the .antt files define or bind,
leaves those that the toolchain makes or the library gives, and writes the others anew wherever they stand: in specs/, in proofs/, and
in the clauses of src/. Code, strings, inputs and outputs keep their names. It stops where two names would fall together.
"""
import pathlib
import re
import sys

EDGE = r"[\w'≢≡≤≥⊎∷∙·-]"
NAME = r"[A-Za-z][\w'-]*"
MADE = re.compile(rf"^(?:abbrev )?(?:pub )?({NAME}) : (?:goal|goals|given|need)\.", re.M)


def own_files(suffix):
    return sorted(p for p in pathlib.Path("crates").rglob(f"*{suffix}") if "out" not in p.parts)


# names that would fall together with one of the library
OTHERWISE = {"bit-and": "and_bit", "bit-or": "or_bit", "bit_not": "not_bit"}


def respelled(name):
    if name in OTHERWISE:
        return OTHERWISE[name]
    words = re.sub(r"(?<=[a-z0-9])([A-Z])", lambda m: "_" + m.group(1).lower(), name) if name[0].islower() else name
    return words.replace("-", "_")


def imported(text):
    """Names that a file takes from the library or from what the toolchain makes of the code."""
    names = set()
    for line in re.findall(r"^(?:ghost )?use ([^\n]*)$", text, re.M):
        path = line.split(".{")[0]
        outside = re.match(r"(Rattle\.std|native|borrow|mathlib|lib|Prim|logic)\b", path) or ".declared" in path
        if outside and ".{" in line:
            for part in line.split(".{")[1].rstrip("};").split(","):
                names.add(part.strip().split(" as ")[0].strip())
    return names


def defined(text):
    names = set()
    text = re.sub(r"--.*", "", text)
    names |= set(re.findall(rf"^\s*(?:unfoldable |abbrev )?(?:pub )?({NAME}) :", text, re.M))
    for group in re.findall(rf"[({{]({NAME}(?: {NAME})*) :", text):
        names |= set(group.split())
    for group in re.findall(r"λ ([^.]*)\.", text):
        names |= set(re.findall(NAME, group))
    names |= set(re.findall(rf"\blet ({NAME})\b", text))
    for group in re.findall(r"\blet \(([^)]*)\)", text):
        names |= set(re.findall(NAME, group))
    for head in re.findall(rf"^\s*{NAME}((?: [\w'()\[\]∷, -]+)+) =", text, re.M):
        names |= set(re.findall(NAME, head))
    return names


def main():
    antt = {p: p.read_text() for p in own_files(".antt")}
    rust = {p: p.read_text() for p in own_files(".rt")}
    names, library, made = set(), set(), set()
    for text in antt.values():
        names |= defined(text)
        library |= imported(text)
        made |= set(MADE.findall(text))
    aliases = set()
    for text in rust.values():
        library |= imported(text)
        for line in re.findall(r"^ghost use [^\n]*$", text, re.M):
            aliases |= set(re.findall(rf" as ({NAME})", line))
    names |= aliases
    renamed = {n: respelled(n) for n in names - library - made if respelled(n) != n}
    new = {}
    for old, name in sorted(renamed.items()):
        if name in new or name in library or name in names - set(renamed):
            sys.exit(f"respell: {old} and {new.get(name, name)} would fall together")
        new[name] = old
    if not renamed:
        return
    words = "|".join(sorted(map(re.escape, renamed), key=len, reverse=True))
    pattern = re.compile(rf"(?<!{EDGE})({words})(?!{EDGE})")

    def turn(text):
        return pattern.sub(lambda m: renamed[m.group(1)], text)

    for path, text in antt.items():
        path.write_text(turn(text))
    for path, text in rust.items():
        lines, depth = text.split("\n"), 0
        for k, line in enumerate(lines):
            if depth or re.match(r"\s*(pub )?(ghost|requires|ensures)\b", line):
                lines[k] = turn(line)
                depth += line.count("{") - line.count("}")
        path.write_text("\n".join(lines))
    for old, name in sorted(renamed.items()):
        print(f"{old} -> {name}")


main()
