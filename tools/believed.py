#!/usr/bin/env python3
"""Lists the definitions that a claim is made of: its own, those that this one names, those that these name, and so on, each with its file and lines; and the words that
they take from the library. What a claim says is what they say. A definition that is shut, such as `plan_of`, is a name with laws: what is inside it is not looked into.

    python3 tools/believed.py TheLimit       of one claim, or of several names together
    python3 tools/believed.py --text NAMES   the definitions themselves, one after the other, with their comments
    python3 tools/believed.py --write        renews the lists of docs/REVIEW.md: each stands behind a line <!-- believed: NAMES --> up to the next empty line,
                                             and has what those before it have not

Reads the crates; writes docs/REVIEW.md, with --write, and nothing else. Needs nothing but Python. Exit status: 0, or 2 where it can't go on.
"""
import functools
import re

from declared import declarations
from tool import ROOT, Arguments, Stop, read, run

REVIEW = "docs/REVIEW.md"
LIST = re.compile(r"(<!-- believed: (.*?) -->\n)((?:.+\n)*)")
NAME = r"[^\W\d][\w']*"
IN_CODE = re.compile(r"^pub (?:struct|enum|const|static|type) ")


@functools.lru_cache(maxsize=None)
def lines(path):
    return read(ROOT / path).split("\n")


def crate_of(one):
    return one.path.split("/")[1]


def head(one):
    return lines(one.path)[one.at - 1]


def said(one):
    """What a declaration says, without comments; of a definition that is shut its type alone."""
    is_shut = not re.match(r"(?:unfoldable|pattern|abbrev|(?:pub )?(?:record|data|struct|enum|const|static|type))\b", head(one))
    here = lines(one.path)[one.at - 1:one.at if is_shut else one.last]
    return "\n".join(re.split("--|//", line)[0] for line in here)


class Module:
    """A file of definitions: what it declares, a constructor by its type; and from which module it takes each other name."""

    def __init__(self, path, declared):
        self.own, self.taken, self.aliases = {one.name: one for one in declared if not one.owner and not re.match(r"(?:pub )?mod", head(one))}, {}, {}
        types = {name for name, one in self.own.items() if re.match(r"(?:pub )?data ", head(one))}
        self.own.update({one.name: self.own[one.owner] for one in declared if one.owner in types})
        for line in lines(path):
            taken, alias = re.match(r"use ([\w.]+?)\.\{(.*)\}$", line), re.match(r"use ([\w.]+) as (\w+)$", line)
            self.taken.update({name.strip(): taken[1] for name in taken[2].split(",")} if taken else {})
            self.aliases.update({alias[2]: alias[1]} if alias else {})


class Tree:
    def __init__(self):
        files = {}
        for one in declarations():
            files.setdefault(one.path, []).append(one)
        self.specs = {module_of(path): Module(path, declared) for path, declared in files.items() if "/specs/" in path}
        self.code = [one for path, declared in files.items() if path.endswith(".rt") for one in declared if IN_CODE.match(head(one))]
        crates = [line.split(":")[0].split()[0] for line in lines("crates.txt") if line and not line.startswith("#")]
        self.rank = {crate: n for n, crate in enumerate(crates)}

    def named(self, name):
        """The definition of this name in specs/."""
        found = [module.own[name] for module in self.specs.values() if name in module.own]
        if len(found) != 1:
            raise Stop(f"{len(found)} definitions in crates/*/specs have the name {name}; one is needed")
        return found[0]

    def in_code(self, name, crate):
        """The type or constant of this name that the code of a crate sees: its own, or that of the nearest crate below."""
        found = [one for one in self.code if one.name == name and self.rank[crate_of(one)] <= self.rank[crate]]
        return max(found, key=lambda one: self.rank[crate_of(one)], default=None)

    def taken_from(self, module, name):
        """What a name means that is taken from a module; None where the module is the library's."""
        declared = re.match(r"Rattle\.(\w+)\.specs\.declared\.(?:.*\.)?(\w+)$", re.sub(r"\.TheVariants$", "", module))
        if declared:
            return self.in_code(name if declared[2] == "TheConstants" else declared[2], declared[1])
        return self.specs[module].own.get(name) if module in self.specs else None

    def names_in(self, one):
        """The definitions that a definition names, and the library's words in it, each with its module."""
        text = said(one)
        names = set(re.findall(rf"(?<![\w.]){NAME}", text))
        if one.path.endswith(".rt"):
            return [found for found in (self.in_code(name, crate_of(one)) for name in names) if found], set()
        module = self.specs[module_of(one.path)]
        found = [self.taken_from(module.aliases[alias], name) for alias, name in re.findall(rf"(?<![\w.])({NAME})\.({NAME})", text) if alias in module.aliases]
        library = set()
        for spelled in names | {f"◌{word}◌" for word in names | set(re.findall(r"[^\w\s()\[\]{}.,;:]+", text))}:
            source = module.own.get(spelled) or self.taken_from(module.taken.get(spelled, ""), spelled)
            found.append(source)
            library |= {(spelled, module.taken[spelled])} if spelled in module.taken and not source else set()
        return [one for one in found if one], library

    def believed(self, names):
        """All that these claims are made of, and the library's words."""
        seen, library, left = set(), set(), [self.named(name) for name in names]
        while left:
            one = left.pop()
            if one not in seen:
                seen.add(one)
                more, words = self.names_in(one)
                left += more
                library |= words
        return seen, library


def module_of(path):
    return "Rattle." + path[len("crates/"):-len(".antt")].replace("/", ".")


def listed(tree, definitions, library):
    """The list: a row for each file, and the library's words."""
    def link(one):
        span = f"{one.at}" if one.at == one.last else f"{one.at}-{one.last}"
        return f"`{one.name}` [{span}](../{one.path}#L{one.at}-L{one.last})"

    rows = [f"| File | {len(definitions)} definitions of {sum(one.last - one.at + 1 for one in definitions)} lines |", "|---|---|"]
    for path in sorted({one.path for one in definitions}, key=lambda path: (tree.rank[path.split("/")[1]], path)):
        here = sorted((one for one in definitions if one.path == path), key=lambda one: one.at)
        rows.append(f"| [{path[len('crates/'):path.rindex('.')]}](../{path}) | {', '.join(map(link, here))} |")
    words = {}
    for name, module in library:
        words.setdefault(module, []).append(f"`{name.strip('◌')}`")
    return rows + [f"| from {module} | {', '.join(sorted(words[module]))} |" for module in sorted(words)]


def texts(tree, definitions):
    """The definitions themselves, from low to high, each with the comment above it."""
    for one in sorted(definitions, key=lambda one: (tree.rank[crate_of(one)], one.path, one.at)):
        yield f"{one.path}:{one.at}"
        yield from lines(one.path)[one.first - 1:one.last] + [""]


def renewed(text):
    """A document with its lists as the tree has them now."""
    tree, before, known = Tree(), set(), set()

    def renew(found):
        seen, library = tree.believed(found[2].split())
        new, words = seen - before, library - known
        before.update(new)
        known.update(words)
        return found[1] + "\n".join(listed(tree, new, words)) + "\n"

    return LIST.sub(renew, text)


def main():
    arguments = Arguments(__doc__)
    arguments.add_argument("claims", nargs="*", metavar="CLAIM", help="the name of a definition in crates/*/specs")
    arguments.add_argument("--text", action="store_true", help="print the definitions themselves")
    arguments.add_argument("--write", action="store_true", help=f"renew the lists of {REVIEW}")
    given = arguments.parse_args()
    if bool(given.claims) == given.write:
        raise Stop("the name of a claim is needed, or --write")
    if given.write:
        text = renewed(read(ROOT / REVIEW))
        (ROOT / REVIEW).write_text(text, encoding="utf-8")
    else:
        tree = Tree()
        definitions, library = tree.believed(given.claims)
        print("\n".join(texts(tree, definitions) if given.text else listed(tree, definitions, library)))


if __name__ == "__main__":
    run(main)
