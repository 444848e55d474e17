#!/usr/bin/env python3
"""Holds the documents to the tree. Prints a line for each thing that does not agree, and how many they are.

    python3 tools/evidence.py [LOG]
    python3 tools/evidence.py --refusals LOG
    python3 tools/evidence.py --lines [--write]

What it holds:
  - every document is there; every link leads to a file, a heading or lines that are there; README.md is short; LIMIT speaks of CHANGELOG's newest version;
  - rules: docs/RULES.md defines each name once; docs/EVIDENCE.md has a row for each; a name that is cited, as [write.cells], in a document, in a comment of the
    crates, in an edit of a must-fail/ or in a tool, is defined;
  - edits: docs/EVIDENCE.md names every edit of a must-fail/, and none that is not there;
  - names in backticks in the tables of EVIDENCE, LIMIT and REVIEW are declared in the crates; files in backticks are there;
  - lines: in REVIEW and LIMIT a file with its number of lines behind it has so many; where a row has a name and a link to lines, as
    Code.antt#L30-L34, it is declared there, whole; the lists of definitions in REVIEW are those that believed.py makes;
  - the picture is drawn from what the program `example` prints;
  - some words stand nowhere, such as those for what is still to be written;
  - with what a gate (`rt ci`) printed, in the file LOG: the first lines of refusals that EVIDENCE quotes are the gate's own.

With --refusals it prints the rows of EVIDENCE that quote a refusal, as they have to be by LOG. With --lines it prints the links to lines of REVIEW that don't hold
their definition; with --write too it puts them right. It reads the documents, the crates and the tools, writes nothing but that, and needs nothing but Python. Exit status: 0,
1 where something does not agree, or 2 where it can't go on.
"""
import ast
import functools
import io
import re
import tokenize

import believed
import picture
from declared import declarations
from tool import ROOT, Arguments, Stop, read, run

DOCUMENTS = ["README.md", "CHANGELOG.md", "docs/RULES.md", "docs/LIMIT.md", "docs/REVIEW.md", "docs/EXTENDING.md", "docs/EVIDENCE.md", "docs/DECISIONS.md"]
NOTES = sorted(path.relative_to(ROOT).as_posix() for path in ROOT.glob("docs/notes/*.md"))
MOST_README_LINES = 150

# A rule's name in brackets, but not where it is an index, or the words of a link to something else than the rules.
RULE = r"[a-z][a-z0-9-]*(?:\.[a-z0-9-]+)+"
CITED = re.compile(rf"(?<![\w\])])\[({RULE})\](?!\((?!(?:docs/|\.\./)?RULES\.md))")

# What must not stand in a document or a comment: what is still to be written, and a document that is told by a number alone.
NEVER = [r"\bTODO\b|\bTBD\b|\b[A-Z]+_HERE\b", r"\b[Dd]emands? \d\b", r"\b0\d's\b", r'"0\d"']
REQUEST = r"\bM-1\d\d\b"

# Words in backticks of a table that the crates don't declare: of the language, of the tools, of a session.
WORDS = set("""
    check ensures exit fn for ghost if impl match method mod or pub requires result static struct then trait unfolding use while
    antt rt rustc python3 bash ci verdict objdump std io libc os stdin stdout stderr ff axioms
""".split())


def there(path):
    return (ROOT / path).is_file()


@functools.lru_cache(maxsize=None)
def text(path):
    """The text of a document, empty where it isn't there: that is told once, by `documents`."""
    return read(ROOT / path) if there(path) else ""


def number_of_line(whole, at):
    return whole.count("\n", 0, at) + 1


def unfenced(document):
    """A document with its fenced blocks emptied, line for line."""
    return re.sub(r"^```.*?^```", lambda block: "\n" * block[0].count("\n"), text(document), flags=re.M | re.S)


def prose(document):
    """A document without its fenced blocks and code spans: in these a bracket is code. A name in brackets alone in backticks is one that is cited."""
    spans = re.sub(rf"(`+)\[({RULE})\]\1", r" [\2] ", unfenced(document))
    return re.sub(r"(`+)(?!`)[^\n]*?(?<!`)\1(?!`)", "``", spans)


def tables(document):
    """The rows of a document's tables: line number, cells."""
    for n, line in enumerate(unfenced(document).split("\n"), 1):
        if line.startswith("|") and not re.fullmatch(r"[|\-: ]+", line):
            yield n, [cell.strip() for cell in re.split(r"(?<!\\)\|", line)[1:-1]]


def crate_files(pattern):
    return sorted(path.relative_to(ROOT).as_posix() for path in (ROOT / "crates").glob(pattern) if "out" not in path.parts)


def code_comments(path):
    mark = {".rt": "//", ".antt": "--"}[path[path.rindex("."):]]
    for n, line in enumerate(text(path).split("\n"), 1):
        if mark in line:
            yield n, line[line.index(mark) + 2:]


def edit_comments(path):
    """The words at the head of an edit, and the comments in what it replaces and puts there."""
    for n, line in enumerate(text(path).split("\n"), 1):
        mark = re.search(r"//|-- ", line)
        if n == 1 or mark:
            yield n, line if n == 1 else line[mark.end():]


def python_comments(path):
    for token in tokenize.generate_tokens(io.StringIO(text(path)).readline):
        if token.type == tokenize.COMMENT:
            yield token.start[0], token.string
    for node in ast.walk(ast.parse(text(path))):
        if isinstance(node, (ast.Module, ast.FunctionDef, ast.ClassDef)) and ast.get_docstring(node, clean=False):
            first = node.body[0]
            for n, line in enumerate(ast.get_docstring(node, clean=False).split("\n"), first.lineno):
                yield n, line


def comments():
    """The comments of the crates, the edits and the tools: file, line number, words."""
    for path in crate_files("**/*.rt") + crate_files("**/*.antt"):
        yield from ((path, n, words) for n, words in code_comments(path))
    for path in crate_files("*/must-fail/*.edit"):
        yield from ((path, n, words) for n, words in edit_comments(path))
    for path in sorted(file.relative_to(ROOT).as_posix() for file in ROOT.glob("tools/*.py")):
        yield from ((path, n, words) for n, words in python_comments(path))
    yield from ((".ci/run", n, line[line.index("#") + 1:]) for n, line in enumerate(text(".ci/run").split("\n"), 1) if "#" in line)


# ---- documents and links

def documents():
    for document in DOCUMENTS:
        if not there(document):
            yield f"{document} is not there"
    if not NOTES:
        yield "docs/notes has no note"
    newest, said = re.search(r"^## (\S+)", text("CHANGELOG.md"), re.M), re.search(r"version (\d[\d.]*\d)", text("docs/LIMIT.md"))
    if not newest or not said or newest[1] != said[1]:
        yield "docs/LIMIT.md does not speak of the newest version of CHANGELOG.md"
    lines = text("README.md").count("\n")
    if lines > MOST_README_LINES:
        yield f"README.md has {lines} lines, more than {MOST_README_LINES}"


def headings(path):
    """The anchors of a document's headings, as they are made of their words; and those that it sets itself."""
    words = re.findall(r"^#+ +(.*)$", text(path), re.M)
    made = {re.sub(r"[^\w\- ]", "", re.sub(r"\]\([^)]*\)", "", heading).lower()).strip().replace(" ", "-") for heading in words}
    return made | set(re.findall(r"<a (?:id|name)=\"([^\"]+)\"", text(path)))


def links_of(document):
    """The targets of a document's links and pictures: line number, target."""
    for match in re.finditer(r"\]\(([^)\s]+)\)|^\[[^\]]+\]: (\S+)$", unfenced(document), re.M):
        yield number_of_line(text(document), match.start()), match[1] or match[2]


def links(document):
    for n, target in links_of(document):
        if re.match(r"[a-z]+:", target):
            continue
        path, _, anchor = target.partition("#")
        file = (ROOT / document).parent / path if path else ROOT / document
        if not file.exists():
            yield f"{document}:{n}: no file {path}"
        elif anchor and file.suffix == ".md" and anchor not in headings(file.resolve().relative_to(ROOT).as_posix()):
            yield f"{document}:{n}: no heading {target}"
        elif re.fullmatch(r"L\d+(-L\d+)?", anchor) and max(map(int, re.findall(r"\d+", anchor))) > len(read(file).splitlines()):
            yield f"{document}:{n}: no such lines, {target}"
    crates = "|".join(path.name for path in (ROOT / "crates").iterdir())
    known = set(re.findall(r"^\[([^\]]+)\]: ", text(document), re.M))
    for match in re.finditer(rf"(?<![\w\]])\[((?:{crates})(?:/[\w/]+)?)\](?![(:])", prose(document)):
        if match[1] not in known:
            yield f"{document}:{number_of_line(prose(document), match.start())}: [{match[1]}] leads nowhere"


# ---- rules

def defined():
    return re.findall(rf"\*\*\[({RULE})\]\*\*", text("docs/RULES.md"))


def rules():
    names = defined()
    for name in sorted({name for name in names if names.count(name) > 1}):
        yield f"docs/RULES.md defines [{name}] more than once"
    rows = {match[1] for _, cells in tables("docs/EVIDENCE.md") if cells for match in [re.match(rf"\[({RULE})\]", cells[0])] if match}
    for name in names:
        if name not in rows:
            yield f"docs/EVIDENCE.md has no row for [{name}]"
    for document in DOCUMENTS + NOTES:
        for n, line in enumerate(prose(document).split("\n"), 1):
            yield from (f"{document}:{n}: no rule [{name}]" for name in CITED.findall(line) if name not in names)
    for path, n, words in comments():
        yield from (f"{path}:{n}: no rule [{name}]" for name in CITED.findall(words) if name not in names)


# ---- edits

def edits():
    return {f"{path.split('/')[1]}/{path.split('/')[3][:-5]}" for path in crate_files("*/must-fail/*.edit")}


def edits_named():
    kept = edits()
    crates = {edit.split("/")[0] for edit in kept}
    said = {word for word in re.findall(r"`([a-z_]+/[a-z0-9_]+)`", text("docs/EVIDENCE.md")) if word.split("/")[0] in crates}
    yield from (f"docs/EVIDENCE.md does not name the edit {edit}" for edit in sorted(kept - said))
    yield from (f"docs/EVIDENCE.md names an edit that is not there, {edit}" for edit in sorted(said - kept))


# ---- names and files

@functools.lru_cache(maxsize=None)
def index():
    """What is declared, by name."""
    found = {}
    for one in declarations():
        found.setdefault(one.name, []).append(one)
        found.setdefault(one.name.strip("◌"), []).append(one)
    return found


def belongs(one):
    """The crate and the module of what is declared."""
    parts = one.path.split("/")
    return parts[1], parts[-1].split(".")[0]


def is_declared(name, owner=""):
    return any(owner in ("", one.owner, *belongs(one)) for one in index().get(name, []))


def names(document):
    """Names in backticks in a document's tables, in the rows that lead into the crates. `.field` belongs to the record named before it in its row."""
    crates = {path.name for path in (ROOT / "crates").iterdir()}
    for n, cells in tables(document):
        record = ""
        whole = " | ".join(cells)
        if document != "docs/EVIDENCE.md" and "](../crates/" not in whole:
            continue
        for name in re.findall(r"`([^`\s]+)`", re.sub(r"``.*?``", "", whole)):
            if not re.fullmatch(r"\.?[A-Za-z_]\w*(?:(?:\.|::)[A-Za-z_]\w*)*", name):
                continue
            parts = re.split(r"\.|::", name)
            if name.startswith("."):
                owner, last = record, parts[-1]
            else:
                owner, last = (parts[-2] if len(parts) > 1 else ""), parts[-1]
                record = parts[0] if "::" not in name and re.match("[A-Z]", name) else record
            if name in WORDS | crates or re.fullmatch(r"[0-9a-f]+", name) or is_declared(last, owner):
                continue
            yield f"{document}:{n}: the crates declare no {owner + '.' if owner else ''}{last}"


def files(document):
    """Files in backticks, from the root, from the crates or from a crate, and files of crates in any text. A part in capitals stands for a name."""
    crates = [path for path in (ROOT / "crates").iterdir()]
    whole = unfenced(document)
    spans = [(match.start(), word) for match in re.finditer(r"`([^`\n]+)`", whole) for word in match[1].split()]
    spans += [(match.start(), match[0]) for match in re.finditer(rf"(?<![\w/.#])(?:{'|'.join(path.name for path in crates)})/(?:specs|proofs|src)/[\w/]+", whole)]
    for at, word in spans:
        word = word.rstrip("/.,;:)")
        if re.fullmatch(r"[\w./-]+", word) and re.match(r"(?:crates|tools|docs|src|specs|proofs|must-fail|\.ci|\w+/(?:specs|proofs|src|must-fail))/", word):
            if "out" in word.split("/") or any(part.isupper() for part in re.split(r"[/.]", word)):
                continue
            places = [ROOT, ROOT / "crates", ROOT / "docs"] + crates
            if not any((place / (word + end)).exists() for place in places for end in ("", ".antt", ".rt", ".edit")):
                yield f"{document}:{number_of_line(whole, at)}: no file {word}"


# ---- lines

def line_counts(document):
    """Whole files, each with its number of lines behind it. Where they stand below a number of lines in all, they have so many."""
    for part in re.sub(r":\n\n+(?=\|)", ":\n", unfenced(document)).split("\n\n"):
        counts = re.findall(r"\]\(\.\./([^)#]+\.(?:antt|rt))\)[\s|]*(\d+)\b", part)
        lines = [text(path).count("\n") for path, _ in counts]
        for (path, count), n in zip(counts, lines):
            if n != int(count):
                yield f"{document}: {path} has {n} lines, not {count}"
        said = re.search(r"(\d+)\s+lines\b", part)
        if counts and said and int(said[1]) != sum(lines):
            yield f"{document}: the files under \"{said[0].split()[0]} lines\" have {sum(lines)}"


ANCHORED = re.compile(r"\[([^\]]*)\]\(\.\./([^)#]+)#L(\d+)(?:-L(\d+))?\)")


def wanted(names, path):
    """What of these names a file declares, and the names that it doesn't. Of a function and a clause of it, or a record and a field, the part alone."""
    found, missing = [], []
    bare = [re.split(r"\.|::", name)[-1] for name in names]
    for name in names:
        owner, _, last = name.replace("::", ".").rpartition(".")
        here = [one for one in index().get(last, []) if one.path == path and owner in ("", one.owner, *belongs(one))]
        found += [min(here, key=lambda one: (one.owner not in bare, one.at))] if here else []
        missing += [] if here else [name]
    return [one for one in found if not any(other.owner == one.name and one.at < other.at <= one.last for other in found)], missing


def anchors(document):
    """The links to lines in a table: line number, the names that a link is for, and the link as (match, file, first, last). It is for the names in backticks that are its
    words, and the clause in "`clause` of" before them; else for those before it; else for those of its cell; else for those of the row's first cell."""
    in_code = re.compile(r"`([A-Za-z_◌][\w◌]*(?:(?:\.|::)\w+)*)`")
    for n, cells in tables(document):
        for cell in cells:
            at = 0
            for match in ANCHORED.finditer(cell):
                before, own = cell[at:match.start()], in_code.findall(match[1])
                clause = re.search(r"`(\w+)` of $", before)
                names = own + [clause[1]] if own and clause else own or in_code.findall(before) or in_code.findall(cell) or in_code.findall(cells[0])
                yield n, names, (match, match[2], int(match[3]), int(match[4] or match[3]))
                at = match.end()


def definition_lines(document):
    for n, names, (_, path, first, last) in anchors(document):
        found, missing = wanted(names, path)
        for one in found:
            if not first <= one.at <= one.last <= last:
                yield f"{document}:{n}: {one.name} is at lines {one.at} to {one.last} of {path}, not within {first} to {last}"
        yield from (f"{document}:{n}: no {name} in {path}" for name in missing)
        if not names:
            yield f"{document}:{n}: a link to lines, and no name in backticks beside it or in the row's first cell"


def other_anchors(document):
    """The links to lines that don't hold their definition: line number, the link, and as it should be, from the comment above the definition to its end."""
    for n, names, (link, path, first, last) in anchors(document):
        found, _ = wanted(names, path)
        if any(not first <= one.at <= one.last <= last for one in found):
            low, high = min(one.first for one in found), max(one.last for one in found)
            yield n, link[0], f"[{link[1]}](../{path}#L{low}" + (f"-L{high})" if high > low else ")")


def put_lines_right(document, write):
    lines = text(document).split("\n")
    for n, link, right in other_anchors(document):
        print(f"{document}:{n}: {link} is {right}")
        lines[n - 1] = lines[n - 1].replace(link, right)
    if write and there(document):
        (ROOT / document).write_text("\n".join(lines), encoding="utf-8")


def lists():
    """The lists of the definitions that claims are made of, as tools/believed.py makes them; and where it is said how many they are."""
    review = text("docs/REVIEW.md")
    try:
        if believed.renewed(review) != review:
            yield "docs/REVIEW.md: its lists of definitions are not those of tools/believed.py --write"
    except Stop as why:
        yield f"docs/REVIEW.md: {why}"
    made = re.findall(r"^\| File \| (\d+) definitions of (\d+) lines \|$", review, re.M)
    for document in DOCUMENTS:
        for match in re.finditer(r"\b(\d+)\s+definitions\s+of\s+(\d+)\s+lines", text(document)):
            if match.groups() not in made:
                yield f"{document}:{number_of_line(text(document), match.start())}: no list of docs/REVIEW.md has {match[1]} definitions of {match[2]} lines"


# ---- the picture, words

def drawn():
    if picture.drawn(text("crates/example/stdout")) != text("docs/limit.svg"):
        yield "docs/limit.svg is not what tools/picture.py draws from crates/example/stdout"


def words():
    spoken = [(document, n, line) for document in DOCUMENTS + NOTES for n, line in enumerate(text(document).split("\n"), 1)] + list(comments())
    for path, n, line in spoken:
        for pattern in NEVER:
            yield from (f"{path}:{n}: \"{match[0]}\"" for match in re.finditer(pattern, line))
        if path != "CHANGELOG.md" and not path.startswith("docs/notes/"):
            bare = re.sub(r"\[[^\]]*\]\([^)]*notes/[^)]*\)", "", line)
            yield from (f"{path}:{n}: \"{match[0]}\", a request's number, stands only in the notes, in CHANGELOG.md and in links to the notes"
                        for match in re.finditer(REQUEST, bare))


# ---- the refusals that EVIDENCE quotes

def first_errors(log):
    """The first line of the refusal of each edit, as a gate printed it, cut after 160 characters."""
    told = re.findall(r"^rt: must-fail (\S+)\.edit: refused, as it must be(?: \(.*?\))?: ((?:\./)?(.*))$", read(log), re.M)
    return {edit: line + "…" * (len(whole) == 160) for edit, whole, line in told}


def quotes():
    """Rows of EVIDENCE that end in an edit and the start of its refusal: what stands before the refusal, the edit and the refusal."""
    return re.findall(r"^(.*`([a-z_]+/[a-z0-9_]+)` \| )``(.*?) ?`` \|$", text("docs/EVIDENCE.md"), re.M)


def refusals(errors):
    for _, edit, quoted in quotes():
        if edit not in errors:
            yield f"the log has no refusal of {edit}"
        elif not errors[edit].startswith(quoted.rstrip("…")):
            yield f"docs/EVIDENCE.md: {edit} is refused with: {errors[edit]}"


def rows(errors):
    for before, edit, quoted in quotes():
        line = errors.get(edit, quoted)
        yield f"{before}``{line}{' ' * line.endswith('`')}`` |"


def main():
    arguments = Arguments(__doc__)
    arguments.add_argument("log", metavar="LOG", nargs="?", help="what a gate printed")
    arguments.add_argument("--refusals", action="store_true", help="print the rows of EVIDENCE that quote a refusal, by LOG")
    arguments.add_argument("--lines", action="store_true", help="print the links to lines that don't hold their definition")
    arguments.add_argument("--write", action="store_true", help="with --lines: put them right")
    given = arguments.parse_args()
    if given.refusals and not given.log or given.write and not given.lines:
        raise Stop("--refusals needs a LOG, and --write stands beside --lines")
    if given.lines:
        return put_lines_right("docs/REVIEW.md", given.write)
    errors = first_errors(given.log) if given.log else {}
    if given.refusals:
        print("\n".join(rows(errors)))
        return 0

    wrong = list(documents())
    wrong += [w for document in DOCUMENTS + NOTES for w in links(document)]
    wrong += [*rules(), *edits_named()]
    wrong += [w for document in ["docs/EVIDENCE.md", "docs/LIMIT.md", "docs/REVIEW.md"] for w in names(document)]
    wrong += [w for document in DOCUMENTS for w in files(document)]
    wrong += [w for document in ["docs/LIMIT.md", "docs/REVIEW.md"] for w in line_counts(document)]
    wrong += [*definition_lines("docs/REVIEW.md"), *lists(), *drawn(), *words()]
    wrong += refusals(errors) if given.log else []
    print("\n".join(wrong + [f"{len(wrong)} wrong"]))
    return int(bool(wrong))


if __name__ == "__main__":
    run(main)
