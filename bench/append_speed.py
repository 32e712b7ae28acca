#!/usr/bin/env python3
"""Rows a second of `append`, of 10,000 lines, 100,000 and 1,000,000, and the time of an append of one row to a table that
has had few and many of them.

A table has the columns `n` (long, required) and `s` (string, null in each tenth row), and default properties, so that a
data file has 100,000 rows, a container block 64 KiB and a cipher block 1 MiB. Each round makes a new table and appends
all lines at once; then `scan` has to print the same lines. What is counted is the processor's time of the process, its
user's and the system's, and its peak memory; it prints the medians over the rounds. Then rows are appended one by one to
another table, and the medians of the ten appends that end with the 10th and with the last one are printed.

Usage: bench/append_speed [--rounds N] [--rows N] [--appends N]
"""
import argparse
import json
import os
import pathlib
import statistics
import subprocess
import sys
import tempfile

ROOT = pathlib.Path(__file__).resolve().parent.parent
PROGRAM = ROOT / "crates" / "iceberg_cli" / "out" / "iceberg_cli"
KEY = bytes(range(16)).hex()


def lines(count):
    """The lines of so many rows: each tenth text is null."""
    return "".join(json.dumps([n, None if n % 10 == 3 else f"text of row {n}"], separators=(",", ":")) + "\n"
                   for n in range(count))


def seconds(words, source, target):
    """The processor's time for a program with an input and an output, and its peak memory in MiB."""
    with open(source, "rb") as given, open(target, "wb") as out:
        run = subprocess.Popen(words, stdin=given, stdout=out)
        _, status, usage = os.wait4(run.pid, 0)
    run.returncode = os.waitstatus_to_exitcode(status)
    if run.returncode != 0:
        sys.exit(f"append_speed: {words[1]} ends with {run.returncode}")
    return usage.ru_utime + usage.ru_stime, usage.ru_maxrss / 1024


def table(top):
    """Makes a table, and gives the words that name it and its keyring."""
    folder, ring = top / "table", top / "ring"
    ring.write_text(f"m={KEY}\n")
    named = [folder, "--keys", ring]
    subprocess.run([PROGRAM, "create", *named, "--master", "m", "--schema", "n:long!,s:string"], check=True,
                   stdout=subprocess.DEVNULL)
    return named


def append_all(text):
    """The time and the memory of an append of these lines to a new table, which a scan has to print."""
    with tempfile.TemporaryDirectory() as name:
        top = pathlib.Path(name)
        named, given, out = table(top), top / "lines", top / "out"
        given.write_text(text)
        found = seconds([PROGRAM, "append", *named], given, out)
        seconds([PROGRAM, "scan", *named], "/dev/null", out)
        if out.read_text() != text:
            sys.exit("append_speed: scan didn't print the lines that were appended")
        return found


def append_singly(count):
    """The times of so many appends of one row to one table."""
    with tempfile.TemporaryDirectory() as name:
        top = pathlib.Path(name)
        named, given, out = table(top), top / "line", top / "out"
        given.write_text("[1,\"a\"]\n")
        return [seconds([PROGRAM, "append", *named], given, out)[0] for _ in range(count)]


def main():
    """Measures appends of 10,000 rows on, and then of one row each."""
    words = argparse.ArgumentParser(description=__doc__, formatter_class=argparse.RawDescriptionHelpFormatter)
    words.add_argument("--rounds", type=int, default=3)
    words.add_argument("--rows", type=int, default=1_000_000, help="of the largest append")
    words.add_argument("--appends", type=int, default=1000, help="of one row each")
    args = words.parse_args()
    if not PROGRAM.exists():
        print("append_speed: skipped, the program isn't built (rt run in crates/iceberg_cli)")
        return
    count = 10_000
    while True:
        count = min(count, args.rows)
        text = lines(count)
        time, memory = (statistics.median(found) for found in zip(*(append_all(text) for _ in range(args.rounds))))
        print(f"{count:8} rows: {count / time / 1e6:.3f} M rows/s, {time / count * 1e9:.0f} ns a row, {memory:.0f} MiB at most, "
              f"of {len(text) / 1e6:.1f} MB of lines", flush=True)
        if count == args.rows:
            break
        count *= 10
    times = append_singly(args.appends)
    for last in sorted({min(10, args.appends), args.appends}):
        print(f"append {last} of one row: {statistics.median(times[max(0, last - 10):last]) * 1e3:.1f} ms", flush=True)


main()
