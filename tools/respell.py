#!/usr/bin/env python3
"""Brings the repository's own names in clauses, specs/ and proofs/ to snake case.

Run once, at the top, right after the port script of the Rattle kit. A name that begins in lower case loses its capitals
(`dayText` becomes `day_text`), and a definition, lemma, field or constructor of this repository loses its dashes (`month-bounds`
becomes `month_bounds`), unless a library of the kit has a name of that spelling or a part of it names a type (`All-appended`). A lemma that would get the name of
a function has `_lem` after it. A definition may have the name of the function in src/ that it speaks of.
Names that Rattle makes (goals, steps, generated modules), comments, texts in quotes and whatever stands in src/ outside clauses
stay as they are. Names that would fall together are printed, and then nothing is written.
"""
import re
import sys
from pathlib import Path

TOKEN = re.compile(r"(?<![A-Za-z0-9_'\-◌\"])[A-Za-z][A-Za-z0-9_'\-]*")
DEFINED = re.compile(r"^\s*(?:(?:abbrev|unfoldable|pub|record|data|ruleset)\s+)*\(?([a-z][A-Za-z0-9_'\-]*(?:\s+[a-z][A-Za-z0-9_'\-]*)*)\s*:(?![=:])")
GOAL = re.compile(r":\s*goal\.")
# What Rattle makes: the names of goals and of the steps before them.
MADE = re.compile(r"^(returns|overflow|invariant|decreases|loop|bounds|nonzero|prove|slice_bounds|ghost|ghosts|if|in|then|else|Then|Else|After)([-_]|$)")


def code_of(line, comment):
    """The part of a line that is code, and the rest."""
    at, quoted = 0, False
    while at < len(line):
        if line[at] == '"':
            quoted = not quoted
        if not quoted and line.startswith(comment, at):
            return line[:at], line[at:]
        at += 1
    return line, ""


def snake(name):
    parts = []
    for part in name.split("-"):
        if part[:1].islower():
            part = re.sub(r"(?<=[a-z0-9])([A-Z])", lambda m: "_" + m.group(1).lower(), part)
        parts.append(part)
    return "-".join(parts)


def undashed(name):
    """The name with underscores for its dashes, unless a part of it is a type's name."""
    if any(part[:1].isupper() for part in name.split("-")):
        return name
    return name.replace("-", "_")


def sources(top):
    for crate in sorted(Path(top, "crates").iterdir()):
        for path in sorted(crate.rglob("*")):
            if "out" in path.relative_to(crate).parts:
                continue
            if path.suffix in (".antt", ".rt", ".edit"):
                yield path


def antt_edit(text):
    return re.search(r"^file: .*\.antt$", text, re.M) is not None


def own_names(paths):
    """The names that specs/ and proofs/ declare, without those of goals."""
    own, borrowed = set(), set()
    for path in paths:
        if path.suffix != ".antt":
            continue
        lines = path.read_text().split("\n")
        for line in lines:
            code, _ = code_of(line, "--")
            used = re.match(r"^(?:pub )?use Rattle\.([a-z_]+)\.[^{]*\{(.*)\}", code)
            if used and used.group(1) in KIT:
                borrowed.update(TOKEN.findall(used.group(2)))
                continue
            found = DEFINED.match(code)
            if found and not GOAL.search(code):
                own.update(n for n in found.group(1).split() if not MADE.match(n))
    return own, borrowed


KIT = {"std", "core", "io", "std_alloc", "std_collections", "std_heap", "std_io"}


# Where the snake case form is the name of a field; and fields, for which a function of that name is no hindrance.
APART = {
    "freeAt": "free_place",
    "reservedAt": "reserved_place",
    "free-at": "free_at",
    "reserved-at": "reserved_at",
    "few-accounts": "few_accounts",
    "few-securities": "few_securities",
    "account-fits": "account_fits",
    # Other names that an import gives, and a variable.
    "the-verb": "the_verb",
    "the-next": "the_next",
    "a-day": "a_day",
    "an-expiry": "an_expiry",
    "no-p": "no_p",
}


def respelt(name, own, borrowed, taken):
    if name in APART:
        return APART[name]
    if name in borrowed or MADE.match(name):
        return name
    if name in own:
        short = undashed(snake(name))
        return short + "_lem" if "-" in name and short in taken else short
    if "-" in name:
        return name
    return snake(name)


def turned(text, comment, name_of):
    lines = []
    for line in text.split("\n"):
        code, rest = code_of(line, comment)
        parts = code.split('"')
        for at in range(0, len(parts), 2):
            parts[at] = TOKEN.sub(lambda m: name_of(m.group(0)), parts[at])
        lines.append('"'.join(parts) + rest)
    return "\n".join(lines)


def main():
    top = sys.argv[1] if len(sys.argv) > 1 else "."
    paths = list(sources(top))
    own, borrowed = own_names(paths)
    taken = set()
    for path in paths:
        turned(path.read_text(), "//" if path.suffix == ".rt" else "--", lambda name: taken.add(snake(name)) or name)
    name_of = lambda name: respelt(name, own, borrowed, taken)
    written, fallen = {}, []
    for path in paths:
        text = path.read_text()
        comment = "//" if path.suffix == ".rt" else "--"
        if path.suffix == ".edit" and not antt_edit(text):
            continue
        before = set()
        turned(text, comment, lambda name: before.add(name) or name)
        made = {}
        for name in sorted(before - APART.keys()):
            made.setdefault(name_of(name), []).append(name)
        if path.suffix == ".antt":
            fallen += [f"{path}: {', '.join(names)}" for names in made.values() if len(names) > 1]
        written[path] = turned(text, comment, name_of)
    for line in fallen:
        print("falls together:", line)
    if fallen and "--anyway" not in sys.argv:
        sys.exit(1)
    for path, text in written.items():
        if text != path.read_text():
            path.write_text(text)
    print(len(own), "names of this repository")


main()
