#!/usr/bin/env python3
"""places.py [FOLDER]: the places in crates/*/src (and, for proofs, in proofs/ and specs/) that docs/DESIGN-PASS.md counts, by point."""
import glob
import os
import re
import sys
from collections import defaultdict

TOP = os.path.abspath(sys.argv[1] if len(sys.argv) > 1 else os.path.join(os.path.dirname(__file__), ".."))


def files(pattern):
    found = glob.glob(os.path.join(TOP, "crates", pattern), recursive=True)
    return sorted(path for path in found if "/out/" not in path and "/target/" not in path)


def lines():
    for path in files("*/src/**/*.rt"):
        with open(path) as text:
            for number, line in enumerate(text, 1):
                yield os.path.relpath(path, TOP), number, line.rstrip()


class Function:
    """A function with a body: where it stands, its parameters, its clauses, and its body's text."""

    def __init__(self, path, number, head, body):
        self.where = f"{path}:{number}"
        self.crate = path.split("/")[1]
        self.name = re.search(r"\bfn (\w+)", head).group(1)
        inside = re.search(r"\bfn \w+(?:<[^(]*>)?\((.*?)\)\s*(?:->|where|requires|ensures|\{|$)", head, re.S)
        self.parameters = re.findall(r"(\w+): ([^,]+)", inside.group(1) if inside else "")
        self.clauses = [" ".join(c.split()) for c in re.findall(r"^\s*(?:requires|ensures)\b\s*\w*\s*(\{.*\})$", head, re.M)]
        self.kinds = [" ".join(c.split()) for c in re.findall(r"^\s*((?:requires|ensures)\b.*\})$", head, re.M)]
        self.body = body


def functions():
    for path in files("*/src/**/*.rt"):
        text = open(path).read().split("\n")
        at = 0
        while at < len(text):
            if not re.match(r"\s*(pub(\(crate\))? )?(const )?fn \w+", text[at]):
                at += 1
                continue
            indent = re.match(r"\s*", text[at]).group()
            start = at
            opened = None
            while at < len(text):
                line = text[at]
                if line == indent + "{":
                    opened = at
                    break
                if line.endswith(";") and not line.strip().startswith(("ensures", "requires")):
                    break
                if line.strip().startswith(("ensures", "requires")) and line.endswith("};"):
                    break
                if line.endswith("{") and not line.strip().startswith(("ensures", "requires")):
                    opened = at
                    break
                at += 1
            if opened is None:
                at += 1
                continue
            end = opened + 1
            while end < len(text) and text[end] != indent + "}":
                end += 1
            yield Function(os.path.relpath(path, TOP), start + 1, "\n".join(text[start : opened + 1]), "\n".join(text[opened + 1 : end]))
            at = end + 1


def shape(function):
    """The body with the parameters' names, the types, the constants and the numbers left out."""
    body = function.body
    for place, (name, _) in enumerate(function.parameters):
        body = re.sub(rf"\b{name}\b", f"p{place}", body)
    body = re.sub(r"\b[A-Z][A-Z_]+\b|\b\d[\d_]*\b", "N", body)
    body = re.sub(r"\b[A-Z]\w*", "T", body)
    return " ".join(body.split())


def show(title, places):
    print(f"{title}: {len(places)}")
    for place in places:
        print(f"    {place}")


def matching(pattern, but=None):
    return [
        f"{path}:{number}: {line.strip()}"
        for path, number, line in lines()
        if re.search(pattern, line) and not line.strip().startswith("//") and not (but and re.search(but, line))
    ]


def main():
    all_functions = list(functions())
    print(f"functions with a body: {len(all_functions)}")

    show("1 enums", matching(r"\benum \w+"))
    show("1 numbers as answers or refusals", matching(r"-> u8\b|\bResult<[^;]*, u\d+>"))
    show("1 a flag beside a value", matching(r"\(bool, |: bool,"))

    groups = defaultdict(list)
    for function in all_functions:
        groups[shape(function)].append(f"{function.where} {function.name}")
    show("2 functions of one shape", [", ".join(group) for text, group in groups.items() if len(group) > 1 and len(text) > 12])
    structs = defaultdict(list)
    for path in files("*/src/**/*.rt"):
        for found in re.finditer(r"struct (\w+)[^;{]*\{(.*?)\n\}", open(path).read(), re.S):
            fields = re.sub(r"\b[A-Z]\w*", "T", " ".join(found.group(2).split()))
            structs[fields].append(f"{os.path.relpath(path, TOP)} {found.group(1)}")
    show("2 structs of one shape", [", ".join(group) for group in structs.values() if len(group) > 1])

    show("3 loops over a range, and while", matching(r"\bwhile\b|\bfor \w+ in [^{]*\.\."))

    show("4 an impl of a standard trait by hand", matching(r"impl\b.*\b(PartialEq|Eq|PartialOrd|Ord|Clone|Copy|Default|Debug|Display|From|TryFrom)\b.* for "))
    show("4 casts", matching(r" as (u8|u16|u32|u64|usize)\b", r"ghost use"))
    show("4 functions that convert or print", matching(r"\bfn (print_\w+|to_\w+|into_\w+|as_\w+|number|value|size|square)\b"))
    show("4 a result rebuilt by a match", matching(r"Ok\((\w+)\) => Ok\(\1\)"))

    by_clause = defaultdict(set)
    for function in all_functions:
        for clause in function.clauses:
            by_clause[function.crate, clause].add(function.name)
    show("5 one clause on three functions or more of a crate", [f"{crate}: {clause}: {', '.join(sorted(names))}" for (crate, clause), names in sorted(by_clause.items()) if len(names) > 2])
    together = defaultdict(list)
    for function in all_functions:
        some = function.parameters
        for one in range(len(some)):
            for other in range(one + 1, len(some)):
                together[function.crate, some[one], some[other]].append(function.name)
    show("5 two parameters together in three functions or more of a crate", [f"{crate}: {a[0]}: {a[1]}, {b[0]}: {b[1]}: {', '.join(names)}" for (crate, a, b), names in sorted(together.items()) if len(names) > 2])

    show("6 arrays and lengths kept beside", matching(r"\[[A-Za-z_]\w*; \w+\]|^\s*len: usize"))
    show("7 steps picked by a match, tables of functions", matching(r"\bmatch (call|self|step|kind)\b|\bfn\(|\bdyn \b|\[fn\b"))

    answers = sum(len(re.findall(r"^pub \S+ : goal\.", open(path).read(), re.M)) for path in files("*/proofs/**/Answers.antt"))
    print(f"8 answers: {answers}, in {len(files('*/proofs/**/Answers.antt'))} files")
    for kind in ("proofs", "specs"):
        print(f"8 lines in {kind}/: {sum(len(open(path).read().splitlines()) for path in files(f'*/{kind}/**/*.antt'))}")


main()
