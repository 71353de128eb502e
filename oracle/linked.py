"""The programs that link a library of ours: they run the Rust and it on the same inputs in one process."""

import argparse
import subprocess
from pathlib import Path

from extract import fail
from rust_side import TOP, WORK, build, there


def crate(folder, *words):
    """The crate for Rust programs over the library of a folder, with these words for the compiler: words for what uses it."""
    rlib = WORK / "libgedrashiw.rlib"
    searched = ["-L", f"native={folder}"]
    built = ["rustc", "--edition", "2024", "--crate-type", "rlib", "--crate-name", "gedrashiw", *words, *searched]
    if subprocess.run([*built, "-l", "static:-bundle=gedrashiw", "-o", rlib, TOP / "rust/src/lib.rs"]).returncode:
        fail("rustc refuses the crate rust/")
    return ["--extern", f"gedrashiw={rlib}", *searched]


def library():
    """The folder of the library for programs, proved and built where it is missing or older than its sources."""
    if subprocess.run([TOP / "bin/c_library"]).returncode:
        fail("`bin/c_library` fails")
    return TOP / "target/staticlib"


def measured(folder, ours=None):
    """Runs the program of a folder that measures both sides; the exit status."""
    if not there():
        return 0
    WORK.mkdir(parents=True, exist_ok=True)
    fast = ["-C", "opt-level=3", "-C", "codegen-units=1"]
    program = build(f"{folder}_bench", "--cfg", folder, *crate(ours or library(), *fast), *fast)
    return subprocess.run([program, "bench"]).returncode


def main(about, folder, count, of_what):
    """Compares with the program of a folder, or measures; the exit status."""
    parser = argparse.ArgumentParser(description=about)
    parser.add_argument("--seed", type=int, default=1, help="another choice of random inputs")
    parser.add_argument("--count", type=int, default=count, help=of_what)
    parser.add_argument("--bench", action="store_true", help="measure, and compare nothing")
    parser.add_argument("--library", type=Path, help="the folder of another libgedrashiw.a to compare")
    options = parser.parse_args()
    if not there():
        return 0
    WORK.mkdir(parents=True, exist_ok=True)
    ours = (options.library or library()).resolve()
    if options.bench:
        return measured(folder, ours)
    checked = ["-O", "-C", "overflow-checks=on"]
    program = build(folder, "--cfg", folder, *crate(ours, *checked), *checked)
    return subprocess.run([program, "compare", str(options.seed), str(options.count)]).returncode
