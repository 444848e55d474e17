#!/usr/bin/env python3
"""Measures the planner at K = 5, on requests of sixteen reads and on requests that read no symbol twice, beside plain Rust of the same method and
table (without the refusals) in one process; measures sixteen reads of two cells; and compares the plans with plain Rust's on every request within
the limit.

    python3 tools/plan_speed.py

Reads the crates; writes nothing but a scratch directory, with a copy of the crates and a static library over `plan` with the exported functions, which it
removes. Needs rt and rustc. Exit status: 0, or 2 where it can't go on or where a plan differs.
"""
import pathlib
import tempfile

from exported import ROOT, build
from tool import Arguments, call, need, read, run

EXPORTS = """
use plan::plan_group;
use simplex::MOST_PAIRS;

#[unsafe(no_mangle)]
pub extern "C" fn proved_pair(k: usize, a: usize, b: usize, c: usize, d: usize, e: usize, n: usize) -> usize {
    let Ok(plan) = plan_group(k, [a, b, c, d, e]) else {
        return 0;
    };
    let first = plan.first;
    let second = plan.second;
    if n < MOST_PAIRS {
        (first[n] % 64) as usize * 64 + (second[n] % 64) as usize
    } else {
        plan.len
    }
}

#[unsafe(no_mangle)]
pub extern "C" fn proved_plan(k: usize, a: usize, b: usize, c: usize, d: usize, e: usize) -> usize {
    let Ok(plan) = plan_group(k, [a, b, c, d, e]) else {
        return 0;
    };
    let first = plan.first;
    let second = plan.second;
    (first[0] % 64) as usize * 64 + (second[15] % 64) as usize
}

#[unsafe(no_mangle)]
pub extern "C" fn proved_read(out: &mut [u8], store: &[u8], a: usize, b: usize, p: usize) {
    if out.len() < p {
        return;
    }
    if store.len() < p {
        return;
    }
    if store.len() - p < a {
        return;
    }
    if store.len() - p < b {
        return;
    }
    cells::xor_cells(out, 0, &store[a..a + p], &store[b..b + p]);
}
"""

BENCH = r"""
use std::{hint::black_box, time::Instant};

#[link(name = "plan_c", kind = "static")]
extern "C" {
    fn proved_pair(k: usize, a: usize, b: usize, c: usize, d: usize, e: usize, n: usize) -> usize;
    fn proved_plan(k: usize, a: usize, b: usize, c: usize, d: usize, e: usize) -> usize;
    fn proved_read(out: *mut u8, out_len: usize, store: *const u8, store_len: usize, a: usize, b: usize, p: usize);
}

#[derive(Clone, Copy)]
pub struct Pair {
    a: u8,
    b: u8,
}

@ROWS@

struct Plan {
    first: [u8; 16],
    second: [u8; 16],
}

#[inline(never)]
fn plain_plan(k: usize, counts: [usize; 5]) -> Plan {
    let mut plan = Plan { first: [0; 16], second: [0; 16] };
    if counts.iter().all(|&c| c <= 1) {
        let mut n = 0;
        for i in 0..5 {
            plan.first[n] = (counts[i] << i) as u8;
            n += counts[i];
        }
        return plan;
    }
    let left = (1 << (k - 1)) - counts.iter().sum::<usize>();
    let (mut ranks, mut symbols, mut sorted, mut starts) = ([0; 5], [0; 5], [0; 5], [0; 5]);
    for i in 0..5 {
        ranks[i] = (0..5).map(|j| usize::from(counts[i] < counts[j] || counts[i] == counts[j] && j < i)).sum();
        symbols[ranks[i]] = i;
        sorted[ranks[i]] = counts[i];
    }
    sorted[0] += left;
    for p in 1..5 {
        starts[p] = starts[p - 1] + sorted[p - 1];
    }
    let mut at = TRIE[k - 2] as usize;
    for p in (2..k).rev() {
        at = TRIE[at + sorted[p]] as usize;
    }
    let row: &[Pair] = match k {
        2 => &ROWS_OF_2[at + sorted[1]],
        3 => &ROWS_OF_3[at + sorted[1]],
        4 => &ROWS_OF_4[at + sorted[1]],
        _ => &ROWS_OF_5[at + sorted[1]],
    };
    let mut names = [0u8; 32];
    for p in 0..5 {
        for b in 0..1 << p {
            names[(1 << p) + b] = names[b] + (1 << symbols[p]);
        }
    }
    let (mut places, mut n) = ([0u8; 32], 0);
    for i in 0..5 {
        for j in 0..16 {
            places[n + j] = (starts[ranks[i]] + j) as u8;
        }
        n += counts[i];
    }
    for m in 0..n {
        let pair = row[places[m] as usize];
        plan.first[m] = names[pair.a as usize];
        plan.second[m] = names[pair.b as usize];
    }
    plan
}

fn plain_pair(k: usize, c: [usize; 5], n: usize) -> usize {
    let plan = plain_plan(k, c);
    if n == 16 {
        return c.iter().sum();
    }
    plan.first[n] as usize * 64 + plan.second[n] as usize
}

fn proved_pair_of(k: usize, c: [usize; 5], n: usize) -> usize {
    unsafe { proved_pair(k, c[0], c[1], c[2], c[3], c[4], n) }
}

fn proved(k: usize, c: [usize; 5]) -> usize {
    unsafe { proved_plan(k, c[0], c[1], c[2], c[3], c[4]) }
}

fn plain(k: usize, c: [usize; 5]) -> usize {
    let plan = plain_plan(k, c);
    plan.first[0] as usize * 64 + plan.second[15] as usize
}

fn compare() -> usize {
    let mut compared = 0;
    for k in 2..=5usize {
        let limit = 1usize << (k - 1);
        for x in 0..(limit + 1).pow(k as u32) {
            let mut counts = [0; 5];
            let mut rest = x;
            for i in 0..k {
                counts[i] = rest % (limit + 1);
                rest /= limit + 1;
            }
            if counts.iter().sum::<usize>() <= limit {
                assert!((0..=16).all(|n| proved_pair_of(k, counts, n) == plain_pair(k, counts, n)));
                compared += 1;
            }
        }
    }
    compared
}

// Sixteen reads into one place of the output, each the XOR of two of the 31 cells of a row.
fn serve(out: &mut [u8], store: &[u8], p: usize) {
    for n in 0..16 {
        unsafe { proved_read(out.as_mut_ptr(), out.len(), store.as_ptr(), store.len(), n * p, (30 - n) * p, p) }
    }
}

fn median(many: usize, mut work: impl FnMut(usize)) -> f64 {
    let mut times = vec![];
    for _ in 0..101 {
        let start = Instant::now();
        for n in 0..many {
            work(n);
        }
        times.push(start.elapsed().as_nanos() as f64 / many as f64);
    }
    times.sort_by(|a, b| a.partial_cmp(b).unwrap());
    times[50]
}

fn random(x: &mut u64) -> usize {
    *x ^= *x << 13;
    *x ^= *x >> 7;
    *x ^= *x << 17;
    (*x >> 16) as usize
}

fn measure(what: &str, requests: &[[usize; 5]]) {
    let proved_ns = median(requests.len(), |n| { black_box(proved(black_box(5), requests[n])); });
    let plain_ns = median(requests.len(), |n| { black_box(plain(black_box(5), requests[n])); });
    println!("K = 5, {what}, medians: a plan {proved_ns:.0} ns, in plain Rust {plain_ns:.0} ns");
}

fn main() {
    let (mut x, mut full, mut collision_free) = (88172645463325252u64, vec![[0; 5]; 10_000], vec![[0; 5]; 10_000]);
    for counts in &mut full {
        for _ in 0..16 {
            counts[random(&mut x) % 5] += 1;
        }
    }
    for counts in &mut collision_free {
        let set = random(&mut x);
        *counts = [0, 1, 2, 3, 4].map(|i| set >> i & 1);
    }
    measure("random requests of 16 reads", &full);
    measure("random requests that read no symbol twice", &collision_free);
    for p in [64, 256, 1500] {
        let (mut out, store) = (vec![0u8; p], vec![1u8; 31 * p]);
        let serve_ns = median(1000, |_| serve(black_box(&mut out), black_box(&store), p));
        println!("sixteen reads of two cells of {p} bytes: {serve_ns:.0} ns");
    }
    println!("requests within the limit: {}, all plans the same", compare());
}
"""


def main():
    Arguments(__doc__).parse_args()
    need("rt", "rustc")
    rows = read(ROOT / "crates" / "table" / "src" / "rows.rt").replace("use audit::Pair;\n", "")
    with tempfile.TemporaryDirectory() as scratch:
        work = pathlib.Path(scratch)
        archive = build(work, "plan", EXPORTS)
        (work / "bench.rs").write_text(BENCH.replace("@ROWS@", rows), encoding="utf-8")
        call(["rustc", "-O", "bench.rs", "-L", archive.parent, "-o", "bench"], cwd=work)
        print(call(["./bench"], cwd=work), end="")


if __name__ == "__main__":
    run(main)
