#!/usr/bin/env python3
"""Answers a session file by the rules alone, as the program session does. Which plan a group gets does not show in an answer, so there is no
bank and no planner here: a memory is the packets that each full row was last given, and a read takes its packet from there.

    python3 tools/session.py < crates/session/stdin

Reads the file from standard input, lines of hexadecimal, one frame a line, and prints a line for each. A file longer than 32,768 bytes is said to be so on standard
error, and nothing behind these is answered. Exit status: 0, refusals or not, or 2 where it can't go on.
"""
import sys

from tool import Arguments, run as run_tool

MOST_TEXT, MOST_LINE, MOST_STORE = 32768, 4096, 16384

# What is said of a longer text, on standard error, as the program session says it.
CUT = f"The text is longer than {MOST_TEXT} bytes: nothing behind these was answered."


class Refused(Exception):
    def __init__(self, number, place=0):
        self.number, self.place = number, place


class Memory:
    def __init__(self, K, m, P, G):
        for number, value, least, most in [(1, K, 2, 5), (2, m, 1, 8), (3, P, 1, 2048), (4, G, 1, 64)]:
            if not least <= value <= most:
                raise Refused(number)
        self.K, self.m, self.P, self.G = K, m, P, G
        self.banks, self.limit = m * (2 ** K - 1), 2 ** (K - 1)
        if self.banks * G * P > MOST_STORE:
            raise Refused(20)
        self.rows = {}  # the generation of each full row

    def write(self, row, generation):
        if row >= self.G:
            raise Refused(7)
        if row in self.rows:
            raise Refused(8)
        if len(generation) != self.m * self.K * self.P:
            raise Refused(10)
        self.rows[row] = generation
        return bytes([len(self.rows)])

    def release(self, row):
        if row >= self.G:
            raise Refused(7)
        if row not in self.rows:
            raise Refused(9)
        del self.rows[row]
        return bytes([len(self.rows)])

    # A generation has group 0's packets in symbol order, then group 1's, and so on.
    def packet(self, row, group, symbol):
        first = (group * self.K + symbol) * self.P
        return self.rows[row][first:first + self.P]

    def cycle(self, fields):
        if len(fields) % 3:
            raise Refused(13)
        reads = list(zip(fields[::3], fields[1::3], fields[2::3]))
        for n, (row, group, symbol) in enumerate(reads):
            for number, wrong in [(7, row >= self.G), (14, group >= self.m), (15, symbol >= self.K), (9, row not in self.rows)]:
                if wrong:
                    raise Refused(number, n)
        # The counts go by group, over all rows, and are judged only once every read is in order.
        for x in range(self.m):
            if sum(group == x for _, group, _ in reads) > self.limit:
                raise Refused(12, x)
        return b"".join(self.packet(*read) for read in reads)


# The bytes of a line. Only a line feed ends a line, so a carriage return is a character of it, and no digit; nor is a capital.
def frame_of(line):
    if not line or len(line) % 2 or len(line) > MOST_LINE or set(line) - set(b"0123456789abcdef"):
        raise Refused(17)
    return bytes.fromhex(line.decode("ascii"))


# The memory after a frame, and the answer. How long a generation and a list have to be is for the operation to judge.
def run(memory, kind, fields):
    if not {1: len(fields) == 5, 2: len(fields) >= 1, 3: len(fields) == 1, 4: True}.get(kind, False):
        raise Refused(18)
    if kind == 1:
        memory = Memory(fields[0], fields[1], fields[2] * 256 + fields[3], fields[4])
        return memory, bytes([memory.banks, memory.limit])
    if memory is None:
        raise Refused(19)
    if kind == 2:
        return memory, memory.write(fields[0], fields[1:])
    if kind == 3:
        return memory, memory.release(fields[0])
    return memory, memory.cycle(fields)


def answers(text):
    lines = text[:MOST_TEXT].split(b"\n")
    if not lines[-1]:
        lines.pop()  # what stands behind a line feed at the very end, or is the whole of an empty text, is no line
    memory = None
    for line in lines:
        try:
            frame = frame_of(line)
            memory, answer = run(memory, frame[0], frame[1:])
            reply = bytes([frame[0] + 128, 0]) + answer
        except Refused as no:
            start = 255 if no.number in (17, 18) else frame[0] + 128
            reply = bytes([start, no.number, no.place // 256, no.place % 256])
        yield reply.hex()


def main():
    Arguments(__doc__).parse_args()
    text = sys.stdin.buffer.read()
    for reply in answers(text):
        print(reply)
    if len(text) > MOST_TEXT:
        print(CUT, file=sys.stderr)


if __name__ == "__main__":
    run_tool(main)
