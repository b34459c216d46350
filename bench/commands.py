#!/usr/bin/env python3
"""Times `check` and `make` for few and for many classes of three sizes.

usage: commands.py [PROG [RUNS]]      (default: release/card_switch, and 5)

Makes the bundles in a temporary folder, and prints for each the least of the seconds of RUNS runs: of `check` of the bundle and of `make` of the
tables, and the most memory of both by bytes of their inputs."""

import subprocess
import sys
import tempfile
from pathlib import Path

sys.dont_write_bytecode = True

import measuring

TOP = Path(__file__).resolve().parent.parent
BUNDLES = ("1", "4", "16", "many-1", "many-4", "many-16")


def bundles(folder):
    """The bundle of each shape, and its tables alone."""
    subprocess.run([sys.executable, TOP / "bench" / "make_bundles.py", folder], check=True)
    for name in BUNDLES:
        bundle = Path(folder) / f"{name}.bundle"
        tables = Path(folder) / f"{name}.tables"
        tables.write_bytes(bundle.read_bytes().split(b"%%\n")[0])
        yield name, bundle, tables


def main():
    program = str(Path(sys.argv[1]).resolve()) if len(sys.argv) > 1 else str(TOP / "release" / "card_switch")
    runs = int(sys.argv[2]) if len(sys.argv) > 2 else 5
    with tempfile.TemporaryDirectory() as folder:
        print("bundle    check, s  make, s  memory of check  of make")
        for name, bundle, tables in bundles(folder):
            check, check_memory = measuring.best([program, "check"], bundle, runs)
            make, make_memory = measuring.best([program, "make"], tables, runs)
            print(
                f"{name:<8}  {check:>8.3f}  {make:>7.3f}  {check_memory / bundle.stat().st_size:>15.1f}  {make_memory / tables.stat().st_size:>7.1f}",
                flush=True,
            )


if __name__ == "__main__":
    main()
