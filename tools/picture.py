#!/usr/bin/env python3
"""Draws a read cycle of one group, from what the program `example` prints:

    (cd crates/example && rt run) | python3 tools/picture.py > docs/limit.svg
    python3 tools/picture.py < crates/example/stdout > docs/limit.svg

A column for each bank, a row for each read, a dot where the read opens the bank: filled where the bank's degree is odd, hollow where it is even. Below the reads
that are served, the one read more that is refused.

Reads standard input; writes the picture, an SVG, on standard output. Needs nothing but Python. Exit status: 0, or 2 where the input is not what `example` prints.
"""
import re

from tool import Arguments, Stop, read_input, run

LEFT, TOP, STEP, HIGH = 128, 104, 48, 36
SYMBOLS = ["#0b6e99", "#b3541e", "#3d7a3a", "#7a3d8f", "#8a6d00"]
DARK, LIGHT, PALE = "#22313f", "#ffffff", "#dfe4e8"

# How the most reads of a cycle are said, and the read that is one too many.
WORDS = {2: ("two", "third"), 4: ("four", "fifth"), 8: ("eight", "ninth"), 16: ("sixteen", "seventeenth")}


def parse(text):
    """The degree of each bank, the reads in their order as (symbol, banks), and the refusal of the cycle of one read more."""
    degrees = {int(b): int(d) for b, d in re.findall(r"^bank (\d+), degree (\d+):", text, re.M)}
    reads = [(int(i), [int(b) for b in (a, c) if b])
             for i, a, c in re.findall(r"^packet (\d+) from bank (\d+)(?: and bank (\d+))?:", text, re.M)]
    more = re.search(rf"^cycle of {len(reads) + 1} reads: refused with (\d+)$", text, re.M)
    if len(reads) not in WORDS or sorted(degrees) != list(range(1, 2 * len(reads))) or not more:
        raise Stop("the standard input is not what the program `example` prints: a cycle of the most reads that is served, and one of a read more that is refused")
    if sum(degree % 2 for degree in degrees.values()) != len(reads):
        raise Stop("the standard input has another number of banks of odd degree than of reads")
    if any(i >= len(SYMBOLS) or b not in degrees for i, banks in reads for b in banks):
        raise Stop("the standard input reads a packet or a bank that the group has not")
    return degrees, reads, more[1]


def text(x, y, words, size=13, anchor="middle", fill=DARK, more=""):
    return f'<text x="{x}" y="{y}" font-size="{size}" text-anchor="{anchor}" fill="{fill}"{more}>{words}</text>'


def line(x, y, to_x, to_y, colour, more=""):
    return f'<line x1="{x}" y1="{y}" x2="{to_x}" y2="{to_y}" stroke="{colour}"{more}/>'


def dot(x, y, odd, colour):
    return f'<circle cx="{x}" cy="{y}" r="9" fill="{colour if odd else LIGHT}" stroke="{colour}" stroke-width="3"/>'


def box(x, y, width, high, odd):
    return f'<rect x="{x}" y="{y}" width="{width}" height="{high}" rx="4" fill="{DARK if odd else LIGHT}" stroke="{DARK}"/>'


def middle(bank):
    return LEFT + (bank - 1) * STEP + STEP // 2


def header(bank, odd):
    """A bank's number, and the packets whose XOR it holds, three to a line."""
    packets = [str(i) for i in range(bank.bit_length()) if bank >> i & 1]
    lines = ["+".join(packets[:3])] + ["+" + "+".join(packets[n:n + 3]) for n in range(3, len(packets), 3)]
    ink = LIGHT if odd else DARK
    out = [box(middle(bank) - 22, TOP - 56, 44, 52, odd), text(middle(bank), TOP - 38, bank, 15, fill=ink)]
    return out + [text(middle(bank), TOP - 22 + 13 * n, words, 11, fill=ink) for n, words in enumerate(lines)]


def row(n, symbol, banks, degrees):
    y = TOP + n * HIGH + HIGH // 2
    colour = SYMBOLS[symbol]
    out = [text(12, y + 5, f"read {n}, packet {symbol}", anchor="start", fill=colour)]
    if len(banks) == 2:
        out.append(line(middle(min(banks)), y, middle(max(banks)), y, colour, ' stroke-width="3"'))
    return out + [dot(middle(b), y, degrees[b] % 2, colour) for b in banks]


def refused(y, reads, right, number):
    """The row of the one read more."""
    many, next_one = WORDS[len(reads)]
    words = [f"A {next_one} read would need a {next_one} bank of odd degree, and there are {many}:",
             f"so a cycle with it is refused with {number}, too many reads. No choice of banks can serve it."]
    out = [line(12, y, right, y, DARK, ' stroke-dasharray="5 4"'), text(12, y + 31, f"read {len(reads)}", anchor="start", more=' font-weight="bold"')]
    return out + [text(LEFT + 4, y + 22 + 19 * n, said, 14, "start", more=' font-weight="bold"') for n, said in enumerate(words)]


def legend(y, banks):
    """What dark and light, filled and hollow say, and why each read opens a filled dot."""
    odd, even = next(b for b in banks if banks[b] % 2), next(b for b in banks if banks[b] % 2 == 0)
    out = []
    for n, (b, words) in enumerate([(odd, "dark header, filled dot: a bank of odd degree (it holds the XOR of an odd number of packets)"),
                                    (even, "light header, hollow dot: a bank of even degree")]):
        at = y + 24 * n
        out += [box(12, at - 9, 26, 18, banks[b] % 2), dot(56, at, banks[b] % 2, DARK), text(76, at + 5, words, anchor="start")]
    out += [line(23, y + 48, 56, y + 48, DARK, ' stroke-width="3"'), dot(23, y + 48, True, DARK), dot(56, y + 48, False, DARK)]
    return out + [text(76, y + 53, "joined dots: the two banks that a read opens; their XOR is its packet", anchor="start"),
                  text(12, y + 82, "Banks of even degree alone never XOR to one packet, so each read opens a bank of odd degree, and no bank is opened twice.", anchor="start")]


def draw(degrees, reads, number):
    width = LEFT + len(degrees) * STEP + 8
    end = TOP + len(reads) * HIGH
    high = end + 176
    title = f"One group, {len(degrees)} banks: {len(reads)} reads in one cycle, and no more"
    out = [f'<svg xmlns="http://www.w3.org/2000/svg" viewBox="0 0 {width} {high}" font-family="Arial, Helvetica, Liberation Sans, sans-serif" role="img">',
           f"<title>{title}</title>", f'<rect width="{width}" height="{high}" fill="{LIGHT}"/>',
           text(12, 26, title, 17, "start", more=' font-weight="bold"'),
           text(12, TOP - 38, "bank", anchor="start"), text(12, TOP - 22, "holds XOR of packets", 11, "start")]
    for b in degrees:
        out.append(line(middle(b), TOP, middle(b), end, PALE))
        out += header(b, degrees[b] % 2)
    for n, (symbol, banks) in enumerate(reads):
        out += row(n, symbol, banks, degrees)
    out += refused(end + 4, reads, width - 12, number)
    return "\n".join(out + legend(end + 76, degrees) + ["</svg>"]) + "\n"


def drawn(said):
    """The picture of what `example` said."""
    return draw(*parse(said))


def main():
    Arguments(__doc__).parse_args()
    print(drawn(read_input()), end="")


if __name__ == "__main__":
    run(main)
