#!/usr/bin/env python3
"""Names a bound's ghost members by the type parameter that has the bound, as clauses of generic code have to.

Run once, at the top, after `respell.py`: in a clause under `R: Register`, `holdings` becomes `R.holdings`.
"""
import re
import sys
from pathlib import Path

MEMBERS = {
    "Ranked": ["precedes"],
    "Test": ["passes"],
    "Register": ["holdings", "frame"],
    "Calendar": ["business"],
    "Exposed": ["exposes"],
}
CLAUSE = re.compile(r"^(\s*)(requires|ensures)(\s+\w+)?(\s*)\{(.*)\}\s*$")


def bounds_of(header):
    """Which parameter has which bound."""
    found = {}
    for name, bounds in re.findall(r"\b([A-Z]\w*):\s*([A-Z]\w*(?:<[^<>]*>)?(?:\s*\+\s*[A-Z]\w*(?:<[^<>]*>)?)*)", header):
        for bound in bounds.split("+"):
            found[bound.strip().split("<")[0]] = name
    return found


def header_at(lines, at):
    """The text of an item from its first line to the end of its parameters of types."""
    text = ""
    for line in lines[at : at + 12]:
        text += line + " "
        if re.search(r"[({]", line):
            break
    return text


def turned(text):
    lines, out = text.split("\n"), []
    outer, inner, in_trait, depth_of = {}, {}, None, 0
    for at, line in enumerate(lines):
        if re.match(r"^(pub |pub\(crate\) )?(unsafe )?impl\b", line):
            outer, in_trait = bounds_of(header_at(lines, at)), None
        elif re.match(r"^(pub |pub\(crate\) )?trait\b", line):
            outer, in_trait = {}, re.match(r"^(?:pub |pub\(crate\) )?trait (\w+)", line).group(1)
        elif re.match(r"^}", line):
            outer, in_trait = {}, None
        if re.match(r"^\s*(pub |pub\(crate\) )?(const )?fn\b", line):
            inner = bounds_of(header_at(lines, at))
            if "where" in line:
                inner.update(bounds_of(line.split("where")[1]))
        clause = CLAUSE.match(line)
        if clause:
            body = clause.group(5)
            scope = dict(outer)
            scope.update(inner)
            for bound, members in MEMBERS.items():
                if bound in scope and bound != in_trait:
                    for member in members:
                        body = re.sub(r"(?<![.\w])" + member + r"(?![\w'])(?!\s*=)", f"{scope[bound]}.{member}", body)
            line = f"{clause.group(1)}{clause.group(2)}{clause.group(3) or ''}{clause.group(4)}{{{body}}}"
        out.append(line)
    return "\n".join(out)


def main():
    top = sys.argv[1] if len(sys.argv) > 1 else "."
    for path in sorted(Path(top, "crates").glob("*/src/**/*.rt")):
        text = path.read_text()
        new = turned(text)
        if new != text:
            path.write_text(new)
            print(path)


main()
