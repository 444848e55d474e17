#!/usr/bin/env python3
"""Judges what the program cases prints, by the rules alone: there is no planner in here. Each plan is tried by the rules of a plan, each refusal
by its order, and each line that is no request by what is wrong with it; of the self-test the counts of every request by binomials, and each
read cycle by its list, the packets that were written and the rules.

    python3 tools/cases.py crates/cases/stdin --self-test < crates/cases/stdout

Reads what was printed from standard input. Prints each line that is wrong, and how many there are. Exit status: 0, 1 where a line is wrong, or 2 where there is
nothing to judge: the file cannot be read, or the output is empty, ends within a line, or has another number of lines than it is to have.
"""
import re
import sys
from math import comb

from tool import Arguments, Stop, run

MOST_SYMBOLS = 5
EVERY_K = range(2, MOST_SYMBOLS + 1)
GROUPS, ROWS, BYTES, UNTOUCHED = 8, 4, 3, 238

# The bytes of a text of requests that are read, and the largest number.
MOST_TEXT, LARGEST = 32768, 2 ** 64 - 1

# The lines of a cycle. Of one K there are a head, four cycles, the answer to a release, on this line, and one cycle more.
CYCLE_LINES = 4
RELEASE = 1 + 4 * CYCLE_LINES
K_LINES = RELEASE + 1 + CYCLE_LINES

# The shapes that are set up: K, groups, bytes, rows.
SET_UPS = [(1, 0, 0, 0), (6, 9, 2049, 65), (2, 0, 0, 0), (5, 9, 2049, 65), (2, 1, 0, 0), (5, 8, 2049, 65), (2, 1, 1, 0), (5, 8, 2048, 65), (2, 1, 1, 1), (5, 8, 2048, 64)]
SET_UP_RANGES = [(2, 5), (1, 8), (1, 2048), (1, 64)]

# The small memory's generations, and its refused cycles: the number, the place, the list, and the lengths of output and schedule.
SMALL_ROWS = [[0x01, 0x02, 0x04, 0x08], [0x10, 0x20, 0x40, 0x80]]
SMALL_CYCLES = [(5, 0, "0001000101010001", 9, 9), (6, 0, "0001000101010001", 9, 9), (13, 0, "0001000101010001", 9, 9), (15, 2, "000100010101000102", 9, 9),
                (12, 1, "000100010101000101", 9, 9), (16, 0, "000100010101", 3, 4), (16, 0, "000100010101", 2, 5)]

# The memory of six rows: which are full, and in a broken state; and the row sets that are released, each with the rows that are full before.
SIX_ROWS, SIX_FULL, SIX_BROKEN = 6, {0, 1, 3, 5}, {0, 1, 3, 5, 6}
SIX_SETS = [(SIX_BROKEN, {2, 6}), (SIX_FULL, {1, 2, 6, 63}), (SIX_FULL, {0, 2, 4, 5}), (SIX_FULL, set()), (SIX_FULL, {0, 3}), (SIX_FULL - {0, 3}, {1, 5})]

# The memory whose packets are updated: K, groups, bytes, rows, and its generations, group by group and symbol by symbol. Its refused updates: which
# rows are full, the store's length, row, group, symbol and the new packet's length.
UPDATE_K, UPDATE_GROUPS, UPDATE_BYTES, UPDATE_ROWS = 3, 2, 2, 2
UPDATE_GENERATIONS = [[[[1, 2], [3, 4], [5, 6]], [[7, 8], [9, 10], [11, 12]]],
                   [[[0x10, 0x20], [0x30, 0x40], [0x50, 0x60]], [[0x70, 0x80], [0x90, 0xa0], [0xb0, 0xc0]]]]
UPDATE_SIZE = UPDATE_GROUPS * (2 ** UPDATE_K - 1) * UPDATE_ROWS * UPDATE_BYTES
UPDATE_REFUSED = [({0, 1, 2}, UPDATE_SIZE - 1, 2, 2, 3, 1), ({0, 1}, UPDATE_SIZE - 1, 2, 2, 3, 1), ({0, 1}, UPDATE_SIZE, 2, 2, 3, 1), ({0, 1}, UPDATE_SIZE, 1, 2, 3, 1),
                  ({0, 1}, UPDATE_SIZE, 1, 1, 3, 1), ({0, 1}, UPDATE_SIZE, 1, 1, 1, 1), ({0, 1}, UPDATE_SIZE, 1, 1, 1, 3), ({0}, UPDATE_SIZE, 1, 1, 3, 1),
                  ({0}, UPDATE_SIZE, 1, 1, 1, 1)]


def refusal(K, counts):
    if K not in EVERY_K:
        return 1
    if any(counts[K:]):
        return 11
    if sum(counts) > 2 ** (K - 1):
        return 12
    return 0


def serves(K, i, a, b):
    return 1 <= a < 2 ** K and 0 <= b < a and a ^ b == 2 ** i


def none_twice(banks):
    return len(set(banks)) == len(banks)


# Where no symbol is read more than once, each read opens its systematic bank and no other.
def is_systematic(symbols, pairs):
    return not none_twice(symbols) or pairs == [(2 ** i, 0) for i in symbols]


def is_plan(K, counts, pairs):
    symbols = [i for i, c in enumerate(counts) for _ in range(c)]
    return (
        len(pairs) == len(symbols)
        and all(serves(K, i, a, b) for (a, b), i in zip(pairs, symbols))
        and none_twice([b for pair in pairs for b in pair if b])
        and is_systematic(symbols, pairs)
    )


def tally(K):
    most = 2 ** (K - 1)
    within, above = comb(most + K, K), comb(most + K, K - 1)
    return (
        f"K {K}: requests within the limit {within}, plans that the audit says yes to {within}, pairs in them {K * comb(most + K, K + 1)}, "
        f"plans of one bank a read where no symbol is read twice {2 ** K}, exchanged and said no to {within - 1}; "
        f"requests of one read more {above}, refused 12 {above}"
    )


# A byte as it is printed: itself, or what a string in Rust writes for it.
def escaped(byte):
    named = {9: r"\t", 13: r"\r", 34: r"\"", 39: r"\'", 92: r"\\"}
    return named.get(byte, chr(byte) if 32 <= byte < 127 else f"\\x{byte:02x}")


# What is wrong with a text that is to be a number; nothing where it is one.
def fault(text):
    foreign = re.search(rb"[^0-9]", text)
    digits = text.lstrip(b"0")
    if not text:
        return "is empty"
    if foreign:
        return f"has a character that is no digit: {escaped(foreign[0][0])}"
    if len(digits) > len(str(LARGEST)) or int(digits or b"0") > LARGEST:
        return f"is above {LARGEST}"
    return None


# The six numbers of a line; or, of a line that is no request, what is wrong with it.
def request_of(line):
    texts = line.split(b" ")
    for n, text in enumerate(texts, 1):
        if fault(text):
            return None, f"number {n} {fault(text)}"
    if len(texts) != 1 + MOST_SYMBOLS:
        return None, f"six numbers are needed, K and five counts, and these are {len(texts)}"
    return [int(text.lstrip(b"0") or b"0") for text in texts], None


# The lines of a text that are answered, and whether it is longer than what is read: then the line that the end of that cuts is not one of
# them. A line feed at the very end starts no further line.
def lines_of(text):
    lines = text[:MOST_TEXT].split(b"\n")
    is_cut = len(text) > MOST_TEXT
    if is_cut or not lines[-1]:
        lines.pop()
    return lines, is_cut


def is_answer(request, line):
    K, counts = request[0], request[1:]
    head = f"K {K}, counts {' '.join(map(str, counts))}:"
    number = refusal(K, counts)
    if number:
        return line == f"{head} refused {number}, place 0"
    pairs = [(int(a), int(b)) for a, b in re.findall(r"\(([0-9]{1,2}),([0-9]{1,2})\)", line)]
    return line == head + "".join(f" ({a},{b})" for a, b in pairs) + "; the audit says yes" and is_plan(K, counts, pairs)


# Whether this is the answer to the nth line of a text.
def is_right(n, text, line):
    request, wrong = request_of(text)
    return line == f"line {n}: {wrong}" if wrong else is_answer(request, line)


# A packet of the memory that the cycles read.
def packet(K, row, x, i):
    first = (x * K + i) * BYTES
    return [(row + 1) * (n * n * 3 + n * 7 + 5) % 251 for n in range(first, first + BYTES)]


def mixed(K, n):
    x, j = n % GROUPS, n // GROUPS
    return ((x + j) % ROWS, x, (x * 3 + j * (x + 1)) % K)


def one_colliding(n):
    x, j = n % GROUPS, n // GROUPS
    return ((x + j) % ROWS, x, 0 if x == 5 else j)


# The number and place of a cycle's refusal, where the reads have the right form. The counts go by group, over all rows.
def cycle_refusal(K, full, reads):
    for n, (row, _, _) in enumerate(reads):
        if row not in full:
            return 9, n
    for x in range(GROUPS):
        if sum(group == x for _, group, _ in reads) > 2 ** (K - 1):
            return 12, x
    return None


def is_served(K, reads, packets, schedule):
    lines = list(zip(schedule[::2], schedule[1::2]))
    opened = [(x, bank) for (_, x, _), line in zip(reads, lines) for bank in line if bank]
    by_group = [[(i, line) for (_, group, i), line in zip(reads, lines) if group == x] for x in range(GROUPS)]
    return (
        packets == [byte for read in reads for byte in packet(K, *read)]
        and len(lines) == len(reads)
        and all(serves(K, i, a, b) for (_, _, i), (a, b) in zip(reads, lines))
        and none_twice(opened)
        and all(is_systematic([i for i, _ in group], [line for _, line in group]) for group in by_group)
    )


# Whether four lines show the cycle of this list: the answer, the list, and both buffers.
def is_cycle(K, full, reads, lines):
    refused = cycle_refusal(K, full, reads)
    answer = f"refused {refused[0]}, place {refused[1]}" if refused else "served"
    shown = [re.fullmatch(name + " ((?:[0-9a-f]{2})*)", line) for name, line in zip(["reads", "packets", "schedule"], lines[1:])]
    if not all(shown):
        return False
    listed, packets, schedule = [list(bytes.fromhex(match[1])) for match in shown]
    if lines[0] != f"cycle of {len(reads)} reads: {answer}" or listed != [byte for read in reads for byte in read]:
        return False
    if refused:
        return packets == [UNTOUCHED] * (BYTES * len(reads)) and schedule == [UNTOUCHED] * (2 * len(reads))
    return is_served(K, reads, packets, schedule)


# The lines of one K that are wrong.
def wrong_cycles(K, lines):
    limit = 2 ** (K - 1)
    largest = [mixed(K, n) for n in range(GROUPS * limit)]
    every, three = set(range(ROWS)), set(range(ROWS)) - {2}
    lists = [largest, largest + [(1, 5, 0)], [(2, 3, 1)] * limit, [one_colliding(n) for n in range(GROUPS * K)]]
    cycles = [(every, reads) for reads in lists] + [(three, largest)]
    shown = lines[1:RELEASE] + lines[RELEASE + 1:]
    wrong = [] if lines[0] == f"K {K}" and lines[RELEASE] == "full rows 3" else [f"K {K}: not as it should be"]
    for n, (full, reads) in enumerate(cycles):
        cycle = shown[CYCLE_LINES * n:CYCLE_LINES * (n + 1)]
        if not is_cycle(K, full, reads, cycle):
            wrong.append(f"K {K}, {cycle[0]}")
    return wrong


# What each set-up prints: its answer, which rows are full, and the shape. Refused, it leaves a state of zeros.
def set_up_lines():
    lines = ["set-ups"]
    for shape in SET_UPS:
        K, groups, _, _ = shape
        wrong = [number for number, (n, (low, high)) in enumerate(zip(shape, SET_UP_RANGES), 1) if not low <= n <= high]
        answer = f"refused {wrong[0]}, place 0" if wrong else f"banks {groups * (2 ** K - 1)}, most reads of a group {2 ** (K - 1)}"
        lines += [answer, "full 0", "shape " + " ".join(str(n) for n in ((0, 0, 0, 0) if wrong else shape))]
    return lines


# The small memory: K = 2, two groups, packets of one byte, two rows. Bank b of group x keeps row r at byte (x * 3 + b - 1) * 2 + r.
def small_store():
    cells = [(x, b, r) for x in range(2) for b in range(1, 4) for r in range(2)]
    return bytes((b & 1) * SMALL_ROWS[r][2 * x] ^ (b >> 1) * SMALL_ROWS[r][2 * x + 1] for x, b, r in cells).hex()


# What it prints: each write that is refused leaves the store as it was, and each cycle that is refused its buffers.
def small_lines():
    store = "store " + small_store()
    lines = ["small memory", "full rows 1", "full rows 2", store]
    for answer in ["refused 5, place 0", "refused 6, place 0", "refused 7, place 0", "refused 8, place 0", "full rows 1", "refused 10, place 0"]:
        lines += [answer] if answer.startswith("full") else [answer, store]
    lines += ["refused 5, place 0", "refused 7, place 0", "refused 9, place 0"]
    for number, place, reads, out, schedule in SMALL_CYCLES:
        lines += [f"cycle of {len(reads) // 6} reads: refused {number}, place {place}", "reads " + reads, "packets " + "ee" * out, "schedule " + "ee" * schedule]
    lines += ["cycle of 2 reads: served", "reads 000100010101", "packets 0480", "schedule 01000200"]
    return lines + ["audit: refused 1, place 0", "audit: refused 11, place 0", "audit: no"]


# A release of a row set: all its rows are emptied, or none.
def set_lines(full, rows):
    past, empty = [r for r in sorted(rows) if r >= SIX_ROWS], [r for r in sorted(rows) if r not in full]
    if any(r >= SIX_ROWS for r in full):
        answer, after = "refused 5, place 0", full
    elif past:
        answer, after = f"refused 7, place {past[0]}", full
    elif empty:
        answer, after = f"refused 9, place {empty[0]}", full
    else:
        answer, after = f"full rows {len(full - rows)}", full - rows
    return [answer, f"full {sum(2 ** r for r in after)}"]


# A store by the packets of its rows: bank b of a group holds the XOR of the packets whose bit is 1 in b.
def store_of(generations):
    cells = [(x, b, r) for x in range(UPDATE_GROUPS) for b in range(1, 2 ** UPDATE_K) for r in range(UPDATE_ROWS)]
    cell = lambda x, b, r, n: xor_all(generations[r][x][i][n] for i in range(UPDATE_K) if b >> i & 1)
    return [cell(x, b, r, n) for x, b, r in cells for n in range(UPDATE_BYTES)]


def xor_all(numbers):
    total = 0
    for number in numbers:
        total ^= number
    return total


def update_refusal(full, size, row, x, i, length):
    checks = [(5, all(r < UPDATE_ROWS for r in full)), (6, size == UPDATE_SIZE), (7, row < UPDATE_ROWS), (14, x < UPDATE_GROUPS), (15, i < UPDATE_K), (9, row in full),
              (10, length == UPDATE_BYTES)]
    return next((number for number, passed in checks if not passed), None)


# Into each bank with that bit, in that row, the old packet, which is in its systematic bank, and the new one.
def store_after(store, row, x, i, packet):
    at = lambda b: ((x * (2 ** UPDATE_K - 1) + b - 1) * UPDATE_ROWS + row) * UPDATE_BYTES
    after = list(store)
    for b in range(1, 2 ** UPDATE_K):
        for n in range(UPDATE_BYTES):
            after[at(b) + n] ^= (b >> i & 1) * (store[at(2 ** i) + n] ^ packet[n])
    return after


# The lines up to the cycle, the generations after the updates, and the lines after the cycle. A refused update leaves the store; an accepted one leaves the
# store of the edited generations, and a store of other bytes as the XOR changes it. Between the refused ones row 1 is released.
def update_lines():
    show = lambda answer, full, store: [answer, f"full {sum(2 ** r for r in full)}", "store " + bytes(store).hex()]
    store = store_of(UPDATE_GENERATIONS)
    lines = ["updates"]
    released = False
    for full, size, row, x, i, length in UPDATE_REFUSED:
        lines += ["full rows 1"] if full == {0} and not released else []
        released = full == {0}
        lines += show(f"refused {update_refusal(full, size, row, x, i, length)}, place 0", full, store)
    edited = [[[list(packet) for packet in group] for group in row] for row in UPDATE_GENERATIONS]
    for row, x, i, packet in [(1, 1, 1, [0xab, 0xcd]), (0, 0, 2, [0x00, 0xff])]:
        edited[row][x][i] = packet
        lines += show("full rows 2", {0, 1}, store_of(edited))
    other = [0x5a] * UPDATE_SIZE
    other[28], other[37] = 0x11, 0x22
    lines += ["cycle of 4 reads: served", "reads 010101010100010101010101"]
    return lines, edited, show("full rows 2", {0, 1}, store_after(other, 0, 1, 0, [0x0f, 0xf0]))


# Whether the lines of the updates are right: those of the stores, and the cycle that reads three times an updated packet and once its neighbour.
def are_updates(lines):
    head, edited, tail = update_lines()
    shown = [re.fullmatch(name + " ((?:[0-9a-f]{2})*)", line) for name, line in zip(["packets", "schedule"], lines[len(head):])]
    if lines[:len(head)] != head or lines[len(head) + 2:] != tail or not all(shown):
        return False
    reads = [(1, 1, 1), (1, 1, 0), (1, 1, 1), (1, 1, 1)]
    packets, schedule = [bytes.fromhex(match[1]) for match in shown]
    pairs = list(zip(schedule[::2], schedule[1::2]))
    return (
        list(packets) == [byte for row, x, i in reads for byte in edited[row][x][i]]
        and len(pairs) == len(reads)
        and all(serves(UPDATE_K, i, a, b) for (_, _, i), (a, b) in zip(reads, pairs))
        and none_twice([bank for pair in pairs for bank in pair if bank])
    )


# The answers that are wrong, to the lines of a text; behind them stands the line that says where a longer text was left.
def wrong_answers(texts, is_cut, lines):
    wrong = [line for n, (text, line) in enumerate(zip(texts, lines), 1) if not is_right(n, text, line)]
    left = f"line {len(texts) + 1}: only {MOST_TEXT} bytes of a text are read, and nothing from this line on is judged"
    return wrong + [line for line in lines[len(texts):] if not is_cut or line != left]


# The parts of the self-test, each with how many lines it has and a judge, which gives what is wrong in those lines.
def self_test():
    unless = lambda is_right, name: [] if is_right else [name]
    small = set_up_lines() + small_lines()
    sets = ["row sets"] + [line for full, rows in SIX_SETS for line in set_lines(full, rows)]
    head, _, tail = update_lines()
    return [
        *[(1, lambda lines, K=K: unless(lines == [tally(K)], f"K {K}: the counts")) for K in EVERY_K],
        *[(K_LINES, lambda lines, K=K: wrong_cycles(K, lines)) for K in EVERY_K],
        (len(small), lambda lines: unless(lines == small, "the set-ups or the small memory")),
        (len(sets), lambda lines: unless(lines == sets, "the row sets")),
        (len(head) + 2 + len(tail), lambda lines: unless(are_updates(lines), "the updates")),
    ]


# What is wrong in all the lines that were printed.
def wrong_lines(parts, lines):
    wrong = []
    for size, judge in parts:
        wrong += judge(lines[:size])
        lines = lines[size:]
    return wrong


def main():
    arguments = Arguments(__doc__)
    arguments.add_argument("requests", metavar="REQUESTS", help="the text that the program read: its standard input")
    arguments.add_argument("--self-test", action="store_true", help="the program was called with --self-test too")
    asked = arguments.parse_args()
    with open(asked.requests, "rb") as file:
        texts, is_cut = lines_of(file.read())
    output = sys.stdin.buffer.read().decode("latin-1")
    if not output:
        raise Stop("standard input is empty: it is to be what the program printed")
    *lines, rest = output.split("\n")
    if rest:
        raise Stop("the output ends within a line")
    answers = len(texts) + is_cut
    parts = [(answers, lambda lines: wrong_answers(texts, is_cut, lines))] + (self_test() if asked.self_test else [])
    due = sum(size for size, _ in parts)
    if len(lines) != due:
        raise Stop(f"the output has {len(lines)} lines, and {due} are due: {answers} for the requests"
                   + (f" and {due - answers} of the self-test" if asked.self_test else ", without a self-test"))
    wrong = wrong_lines(parts, lines)
    for line in wrong:
        print("wrong:", line)
    print(f"{len(lines)} lines, {len(wrong)} wrong")
    return int(bool(wrong))


if __name__ == "__main__":
    run(main)
