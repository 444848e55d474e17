#!/usr/bin/env python3
"""Shows how the loops over bytes of a write, an update and a read cycle are compiled: of each operation, exported by a function that puts the state together, and
of the functions of the library that it calls, the innermost loops that work on 16 bytes at a time, and the calls.

    python3 tools/loops.py

Reads the crates; writes nothing but a scratch directory, with a copy of the crates and a static library over `memory` with the exported functions, which it removes.
Needs rt and objdump, and x86-64. Exit status: 0, or 2 where it can't go on.
"""
import pathlib
import platform
import re
import tempfile

from exported import build
from tool import Arguments, Stop, call, need, run

STATE = "k: usize, m: usize, p: usize, g: usize, full: u64"
OPERATIONS = {
    "write": ("store: &mut [u8], row: usize, generation: &[u8]", "write(store, row, generation)"),
    "update": ("store: &mut [u8], row: usize, group: usize, symbol: usize, packet: &[u8]", "update(store, PacketName { row, group, symbol }, packet)"),
    "read_cycle": ("store: &[u8], reads: &[u8], out: &mut [u8], schedule: &mut [u8]", "read_cycle(store, reads, out, schedule)"),
}
USES = """
use layout::{PacketName, Rows, Shape};
use memory::State;
use refusals::Answer;
"""
EXPORT = """
#[unsafe(no_mangle)]
pub extern "C" fn exported_{name}({state}, {parameters}) -> usize {{
    let shape = Shape {{ k, m, p, g }};
    let rows = Rows {{ full }};
    let state = State {{ shape, rows }};
    match state.{call}.answer {{
        Ok(Answer::FullRows(rows)) => rows,
        Ok(Answer::Served) => 100,
        Ok(Answer::Ready {{ .. }}) => 150,
        Err(_) => 200,
    }}
}}
"""
PACKED = re.compile(r"mov[au]p[sd]|movdq[au]|xorps|pxor")


# The functions of a listing: the instructions of each, by address, name and operands, and what it calls, in their order.
def functions(listing):
    found = {}
    for function, body in re.findall(r"^[0-9a-f]+ <([^>]+)>:\n(.*?)(?=\n\n|\Z)", listing, re.M | re.S):
        code = [(int(at, 16), name, rest) for at, name, rest in re.findall(r"^ *([0-9a-f]+):\t([a-z]\S*) *(.*)$", body, re.M)]
        calls = re.findall(r"call.*\n.*R_X86_64_(?:PLT32|PC32|GOTPCRELX)\t(?:\.text\.)?([^\s+-]+)", body)
        found[function] = code, calls
    return found


# A function and those of the listing that it calls, and they call, each once.
def reached(found, function, seen):
    if function in found and function not in seen:
        seen.append(function)
        for callee in found[function][1]:
            reached(found, callee, seen)
    return seen


# The innermost loops: from the target of a jump backwards to the jump, with no other such part in it. One with a `ret` in it is no loop: the jump goes to
# the function's end, which may stand before it.
def loops(code):
    parts = []
    for at, name, rest in code:
        target = re.match(r"([0-9a-f]+) <", rest)
        if name.startswith("j") and target and int(target[1], 16) <= at:
            parts.append((int(target[1], 16), at))
    ends = [at for at, name, _ in code if name == "ret"]
    parts = [part for part in parts if not any(part[0] <= at <= part[1] for at in ends)]
    return [part for part in parts if not any(other != part and part[0] <= other[0] and other[1] <= part[1] for other in parts)]


def describe(code, part):
    inside = [(name, rest) for at, name, rest in code if part[0] <= at <= part[1]]
    moves = [rest for name, rest in inside if PACKED.fullmatch(name) and name.startswith("mov")]
    stores = sum(rest.endswith(")") for rest in moves)
    loads = sum(rest.endswith(")") is False and "(" in rest for rest in moves)
    xors = sum(name in ("xorps", "pxor") for name, _ in inside)
    return stores and f"{16 * stores} bytes a turn: {loads} loads, {xors} XORs and {stores} stores of 16 bytes, {sum(name == 'call' for name, _ in inside)} calls"


def main():
    Arguments(__doc__).parse_args()
    need("rt", "objdump")
    if platform.machine() not in ("x86_64", "AMD64"):
        raise Stop(f"reads the instructions of x86-64, and this machine is {platform.machine()}")
    exports = [EXPORT.format(name=name, state=STATE, parameters=parameters, call=call) for name, (parameters, call) in OPERATIONS.items()]
    with tempfile.TemporaryDirectory() as scratch:
        archive = build(pathlib.Path(scratch), "memory", USES + "".join(exports))
        listing = call(["objdump", "-dr", "--no-show-raw-insn", archive])
    found = functions(listing)
    for name in OPERATIONS:
        for function in reached(found, f"exported_{name}", []):
            code, calls = found[function]
            shown = [line for line in (describe(code, part) for part in loops(code)) if line]
            print(f"{name}, {function}: {len(shown)} loops of 16 bytes at a time, {len(calls)} calls in all")
            for line in shown:
                print("  " + line)


if __name__ == "__main__":
    run(main)
