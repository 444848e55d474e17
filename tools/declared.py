#!/usr/bin/env python3
"""What the crates declare, by name, with the lines where it stands: definitions, records and their fields, lemmas, functions and the clauses of their contracts,
types, constants. Read off the text, form by form. A module for evidence.py, and no tool itself.
"""
import collections
import re
import sys

from tool import ROOT, read

# owner: the record, type or module that it belongs to. at: the line that declares it. first: where the comment above it begins. last: its last line, of a
# function that of its contract.
Declared = collections.namedtuple("Declared", "name owner path first at last")

WORDS = r"(?:(?:abbrev|unfoldable|pattern|pub|private|opaque) )*"
NAME = r"[^\s:(){}=,.;|λ→]+"
KIND = re.compile(rf"^( *){WORDS}(record|data|module|ruleset|mod) (?!\w+ \{{)({NAME})")
SIGNATURE = re.compile(rf"^( *){WORDS}({NAME}(?: {NAME})*)(?: [({{].*?[)}}])* :(?: |$)")
ITEM = re.compile(r"^( *)(?:pub )?(const fn|fn|struct|enum|trait|type|const|static|mod|macro_rules!|impl(?:<[^>]*>)?) +(?:.+ for )?([A-Za-z_]\w*)")
CLAUSE = re.compile(r"^( *)(?:ensures|requires|ghost) ([a-z_]\w*) (?:= )?\{")
PART = re.compile(r"^( +)(?:pub )?([A-Za-z_]\w*)(?:: |,$|\(.*\),$| \{| = \d+,$)")


def indent(line):
    return len(line) - len(line.lstrip())


def comment_above(lines, at, mark):
    """Where the comments and attributes right above line `at` begin; lines are counted from 0."""
    while at > 0 and lines[at - 1].lstrip().startswith((mark, "#[")):
        at -= 1
    return at


def names_in(line):
    """What a line of a definition or proof declares: its indentation, kind and names."""
    kind = KIND.match(line)
    if kind:
        return len(kind[1]), kind[2], [kind[3]]
    signature = SIGNATURE.match(line)
    if signature:
        return len(signature[1]), "", signature[2].split()
    return None


def block_end(lines, at):
    """The last line of what line `at` declares: up to an empty line, or to what stands beside it."""
    names = names_in(lines[at])[2]
    end = at
    for n in range(at + 1, len(lines)):
        line = lines[n]
        beside = indent(line) <= indent(lines[at])
        if not line.strip() or beside and line.lstrip().startswith("--"):
            break
        if beside and (names_in(line) or [0, "", names])[2] != names:
            break
        end = n
    return end


def definitions(path):
    """What a file of definitions or proofs declares."""
    lines = read(ROOT / path).split("\n")
    owners = []
    for n, line in enumerate(lines):
        found = names_in(line)
        if not found or line.lstrip().startswith("--"):
            continue
        depth, kind, names = found
        owners = [(d, name) for d, name in owners if d < depth]
        owner = next((name for _, name in reversed(owners)), "")
        for name in names:
            yield Declared(name, owner, path, comment_above(lines, n, "--") + 1, n + 1, block_end(lines, n) + 1)
        if kind in ("record", "data"):
            owners.append((depth, names[0]))


def item_end(lines, at):
    """The last line of an item of the code: of a function with a contract that of the contract, else where its braces or brackets close."""
    depth = indent(lines[at])
    for n in range(at, len(lines)):
        line = lines[n].strip()
        if indent(lines[n]) != depth or not line:
            continue
        if n > at and line in ("{", "{}"):
            return n - 1
        if line.endswith((";", "}")) and (n == at or line.startswith(("}", "]"))):
            return n
    return at


def clause_end(lines, at):
    """The line where the braces of a clause close."""
    depth = 0
    for n in range(at, len(lines)):
        depth += lines[n].count("{") - lines[n].count("}")
        if depth <= 0:
            return n
    return at


def items(path):
    """What a file of code declares."""
    lines = read(ROOT / path).split("\n")
    owners = []
    for n, line in enumerate(lines):
        words = line.strip()
        if not words or words.startswith(("//", "#[", "#!", "{", ")")):
            continue
        owners = [owner for owner in owners if owner[0] < indent(line)]
        kind, owner = owners[-1][1:] if owners else ("", "")
        clause, item, part = CLAUSE.match(line), ITEM.match(line), PART.match(line)
        if clause:
            yield Declared(clause[2], owner, path, n + 1, n + 1, clause_end(lines, n) + 1)
        elif item:
            if not item[2].startswith("impl"):
                yield Declared(item[3], owner, path, comment_above(lines, n, "//") + 1, n + 1, item_end(lines, n) + 1)
            owners.append((len(item[1]), item[2], item[3]))
        elif part and kind in ("struct", "enum"):
            yield Declared(part[2], owner, path, comment_above(lines, n, "//") + 1, n + 1, n + 1)


def declarations():
    """Everything that the crates declare."""
    found = []
    for file in sorted((ROOT / "crates").glob("*/**/*")):
        path = file.relative_to(ROOT).as_posix()
        if "/out/" in path:
            continue
        if file.suffix == ".antt":
            found += definitions(path)
        elif file.suffix == ".rt":
            found += items(path)
    return found


if __name__ == "__main__":
    print(__doc__, file=sys.stderr)
    sys.exit(2)
