#!/usr/bin/env python3
"""Builds functions that C or Rust can call over one of the crates: a static library of its own, in a copy of the crates, since a crate is a library or a
static library and not both. It needs rt. A module for loops.py and plan_speed.py, and no tool itself.
"""
import re
import shutil
import sys

from tool import ROOT, call, read


def build(work, crate, source):
    """The archive of the static library with this source, which may use the crate and those below it, built in the empty folder `work`."""
    crates = read(ROOT / "crates.txt")
    below = re.search(rf"^{crate}:(.*)$", crates, re.M)[1]
    (work / "crates.txt").write_text(f"{crates}{crate}_c staticlib:{below} {crate}\n", encoding="utf-8")
    shutil.copytree(ROOT / "crates", work / "crates", ignore=shutil.ignore_patterns("out", "must-fail"))
    thin = work / "crates" / f"{crate}_c"
    (thin / "src").mkdir(parents=True)
    (thin / "src" / "lib.rt").write_text("#![tactic(auto)]\n" + source, encoding="utf-8")
    call(["rt", "lib"], cwd=thin)
    return thin / "out" / f"lib{crate}_c.a"


if __name__ == "__main__":
    print(__doc__, file=sys.stderr)
    sys.exit(2)
