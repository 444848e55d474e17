#!/usr/bin/env python3
"""Writes the stored table of the planner, crates/table/src/rows.rt, which the definitions take it from.

    python3 tools/table.py
    python3 tools/table.py --check

A row is a plan for one sorted request: falling counts that total 2^(K-1). The rows are found by a randomised search with a fixed seed, so
every run writes the same file. Nothing rests on the search: whatever stands in it, the prover tests every row and that none is missing.

Reads nothing, and needs nothing but Python. With --check it writes nothing, and says whether the file is what it would write. Exit status: 0, 1 where the file is
another, or 2 where it can't go on.
"""
import textwrap

from tool import ROOT, Arguments, read, run

LEAST_SYMBOLS, MOST_SYMBOLS = 2, 5
CHANCE = {1: 1701240189117242, 2: 321322766291006, 3: 60690031188646, 4: 11462866226986}  # of a step that makes it so much worse, in 2^53


class Random:
    """xorshift64: the same numbers on every machine and Python."""

    def __init__(self, seed):
        self.state = seed

    def word(self):
        x = self.state
        x ^= x << 13 & (1 << 64) - 1
        x ^= x >> 7
        x ^= x << 17 & (1 << 64) - 1
        self.state = x
        return x

    def below(self, n):
        return (self.word() >> 16) % n

    def bits(self, n):
        return self.word() >> 64 - n


def sorted_requests(total, symbols, most):
    """All falling counts of so many symbols with this total, none above `most`."""
    if symbols == 0:
        if total == 0:
            yield ()
        return
    for first in range(min(total, most), -1, -1):
        for rest in sorted_requests(total - first, symbols - 1, first):
            yield (first,) + rest


def search(K, counts, random, mate):
    """Moves the pairs until they fit the counts. mate[v] is the bank paired with bank v, 0 where v is read by itself, None where v is unused."""
    have = [0] * K
    for v in range(1, 1 << K):
        if mate[v] is not None and mate[v] < v:
            have[(v ^ mate[v]).bit_length() - 1] += 1
    wrong = sum(abs(h - c) for h, c in zip(have, counts))
    while wrong:
        u, j = 1 + random.below((1 << K) - 1), random.below(K)
        v, w = mate[u], u ^ 1 << j
        if v is None or v == w:
            continue
        i = (u ^ v).bit_length() - 1
        x = w ^ 1 << i
        turn = w == 0 or mate[w] is None  # the pair (u, v) becomes (u, w); else (u, v), (w, x) become (u, w), (v, x)
        if not turn and mate[w] != x:
            continue
        n = 1 if turn else 2
        worse = sum(abs(have[s] + d - counts[s]) - abs(have[s] - counts[s]) for s, d in ((i, -n), (j, n)))
        if worse > 0 and random.bits(53) >= CHANCE[worse]:
            continue
        have[i] -= n
        have[j] += n
        wrong += worse
        mate[u] = w
        if w:
            mate[w] = u
        if v:
            mate[v] = None if turn else x
        if x and not turn:
            mate[x] = v


def row(K, mate):
    """The pairs in the order of a plan."""
    return [(a, mate[a]) for i in range(K) for a in range(1, 1 << K) if a >> i & 1 and mate[a] == a ^ 1 << i]


def table():
    """The rows of each K by their counts, those with the fewest reads of the last symbol first."""
    rows, random = {}, Random(1)
    for K in range(LEAST_SYMBOLS, MOST_SYMBOLS + 1):
        total = 1 << K - 1
        mate = [None] + [v ^ 1 for v in range(1, 1 << K)]
        found = {}
        for counts in sorted_requests(total, K, total):
            search(K, counts, random, mate)
            found[counts] = row(K, mate)
        rows[K] = {counts: found[counts] for counts in sorted(found, key=lambda c: c[::-1])}
    return rows


def trie(rows):
    """Where the rows are: entry K - LEAST_SYMBOLS starts the walk, and each count from the last symbol's to symbol 2's leads on from `at` to the
    entry at + count; the walk ends where adding the count of symbol 1 gives the index of the row among those of K."""
    index = {(K, counts): n for K in rows for n, counts in enumerate(rows[K])}
    entries = [0] * len(rows)

    def node(K, tail):
        symbol = K - 1 - len(tail)
        under = [c for k, c in index if k == K and c[symbol + 1:] == tail]
        counts = range(min(c[symbol] for c in under), max(c[symbol] for c in under) + 1)
        if symbol == 1:
            return min(index[K, c] for c in under) - counts[0]
        at = len(entries)
        entries.extend(0 for _ in counts)
        for c in counts:
            entries[at + c - counts[0]] = node(K, (c,) + tail)
        return at - counts[0]

    for K in rows:
        entries[K - LEAST_SYMBOLS] = node(K, ())
    assert all(0 <= e < 256 for e in entries)
    return entries


def stored(K, rows):
    """The rows of one K as the source has them: each with the counts that it is for."""
    texts = []
    for counts, pairs in rows.items():
        written = [f"({a}, {b})" for a, b in pairs]
        lines = [" ".join(written[n:n + 8]) for n in range(0, len(written), 8)]
        inside = f" {lines[0]} " if len(lines) == 1 else "".join(f"\n        {line}" for line in lines) + "\n    "
        texts.append(f"    // {' '.join(map(str, counts))}\n    row! {{{inside}}},\n")
    return f"\n// The rows of K = {K}.\npub static ROWS_OF_{K}: [[Pair; {1 << K - 1}]; {len(rows)}] = [\n{''.join(texts)}];\n"


def source(rows):
    """The text of the file."""
    entries = trie(rows)
    return (
        "// The stored rows and their trie [form.table]. Written by tools/table.py; nothing rests on how they were found.\n"
        "// Statics, because a constant array would be stored anew at each use; one for each K, so that a row has its pairs and no more. A trie of\n"
        "// indices, because it is constant data, without a heap.\n\n"
        "use audit::Pair;\n\n"
        "// The pairs of a row: (a, b), as a plan has them [plan.pair].\n"
        "macro_rules! row {\n    ($(($a:literal, $b:literal))*) => { [$(Pair { a: $a, b: $b }),*] };\n}\n\n"
        "// Where the row of a request is: by the walk of specs/Table.antt.\n"
        f"pub static TRIE: [u8; {len(entries)}] = [\n"
        + textwrap.fill(", ".join(map(str, entries)) + ",", 99, initial_indent="    ", subsequent_indent="    ") + "\n];\n"
        + "".join(stored(K, rows[K]) for K in rows)
    )


def main():
    arguments = Arguments(__doc__)
    arguments.add_argument("--check", action="store_true", help="compare the file instead of writing it")
    check = arguments.parse_args().check
    file = ROOT / "crates" / "table" / "src" / "rows.rt"
    text = source(table())
    if not check:
        file.write_text(text, encoding="utf-8")
    elif read(file) != text:
        print("crates/table/src/rows.rt is not what tools/table.py writes")
        return 1
    return 0


if __name__ == "__main__":
    run(main)
