#!/usr/bin/env python3
"""Rows a second of taking and printing rows from memory, beside Avro C decoding the same container.

It writes a container of rows with the columns `i` (long, required), `name` (string) and `day` (date), of
which each tenth name and day is null, in blocks of 64 KiB. Each round runs `bench/print_rows.rt.txt`, which takes
each row and prints its line to memory, and `bench/avro_c_decoder.c`, which decodes each record into one
value; both read the whole file first. What is counted is the processor's time for the process, its user's and
the system's, less that of a container without rows. It prints the medians over the rounds, and of each round's
ratios the median; and how long a row takes in containers of 10,000 rows on.

Usage: bench/rows_beside_avro_c [--rounds N] [--rows N]
"""
import argparse
import json
import pathlib
import resource
import shutil
import statistics
import subprocess
import sys
import tempfile

ROOT = pathlib.Path(__file__).resolve().parent.parent
MARKER = bytes(range(16))
BLOCK = 1 << 16
LIBRARIES = ("icb_base", "icb_schema", "icb_avro", "icb_container", "icb_types", "icb_rows")
SCHEMA = {
    "type": "record",
    "name": "table",
    "fields": [
        {"name": "i", "type": "long", "field-id": 1},
        {"name": "name", "type": ["null", "string"], "field-id": 2},
        {"name": "day", "type": ["null", {"type": "int", "logicalType": "date"}], "field-id": 3},
    ],
}


def number(n):
    """A whole number (Avro, "Binary encoding")."""
    n = (n << 1) ^ (n >> 63)
    out = bytearray()
    while n > 0x7F:
        out.append(n & 0x7F | 0x80)
        n >>= 7
    out.append(n)
    return bytes(out)


def text(data):
    return number(len(data)) + data


def row(i):
    """The data of a row: every tenth name and day is null."""
    return [i, None if i % 10 == 3 else f"name of row {i}", None if i % 10 == 7 else 18000 + i % 2000]


def record(data):
    i, name, day = data
    return (number(i) + (b"\x00" if name is None else b"\x02" + text(name.encode()))
            + (b"\x00" if day is None else b"\x02" + number(day)))


def container(count, target):
    """Writes a container of so many rows (Avro, "Object Container Files"); how many bytes their lines have."""
    lines, block, held = 0, bytearray(), 0
    with open(target, "wb") as file:
        properties = [(b"avro.schema", json.dumps(SCHEMA).encode()), (b"avro.codec", b"null")]
        file.write(b"Obj\x01" + number(len(properties)))
        file.write(b"".join(text(key) + text(value) for key, value in properties) + b"\x00" + MARKER)
        for i in range(count):
            data = row(i)
            block += record(data)
            held += 1
            lines += len(json.dumps(data, separators=(",", ":"))) + 1
            if len(block) >= BLOCK or i + 1 == count:
                file.write(number(held) + number(len(block)) + block + MARKER)
                block, held = bytearray(), 0
    return lines


def print_rows(folder):
    """Proves and builds our program in a copy of the repository, which has no place for it; its path."""
    for line in (ROOT / "crates.txt").read_text().split("\n"):
        if line.split(":")[0] in LIBRARIES:
            shutil.copytree(ROOT / "crates" / line.split(":")[0], folder / "crates" / line.split(":")[0],
                            ignore=shutil.ignore_patterns("out"))
            with open(folder / "crates.txt", "a") as crates:
                crates.write(line + "\n")
    with open(folder / "crates.txt", "a") as crates:
        crates.write(f"print_rows: {' '.join(LIBRARIES)}\n")
    crate = folder / "crates" / "print_rows"
    (crate / "src").mkdir(parents=True)
    shutil.copy(ROOT / "bench" / "print_rows.rt.txt", crate / "src" / "main.rt")
    with open(folder / "rows0", "rb") as data:
        done = subprocess.run(["rt", "run"], cwd=crate, stdin=data, capture_output=True, text=True, check=False)
    if done.returncode != 0:
        sys.exit(done.stdout + done.stderr)
    return crate / "out" / "print_rows"


def avro_c_decoder(folder):
    """Builds the program over Avro C; its path."""
    decoder = folder / "avro_c_decoder"
    subprocess.run(["cc", "-O2", "-o", decoder, ROOT / "bench" / "avro_c_decoder.c", "-lavro"], check=True)
    return decoder


def seconds(words, stdin, expected):
    """The processor's time for a program that says the counts that are expected."""
    before = resource.getrusage(resource.RUSAGE_CHILDREN)
    done = subprocess.run(words, stdin=stdin, capture_output=True, text=True, check=True)
    after = resource.getrusage(resource.RUSAGE_CHILDREN)
    counts = [int(word) for word in done.stdout.split()]
    if counts != expected:
        sys.exit(f"{words[0]} counted {counts}, not {expected}")
    return after.ru_utime - before.ru_utime + after.ru_stime - before.ru_stime


def one_round(programs, folder, count, lines):
    """The seconds of both programs over a container, less those of one without rows."""
    found = []
    for program, more in zip(programs, (lines, count * (count - 1) // 2)):
        times = []
        for rows, expected in ((count, [count, more]), (0, [0, 0])):
            file = folder / f"rows{rows}"
            with open(file, "rb") as data:
                times.append(seconds([program, file], data, expected))
        found.append(times[0] - times[1])
    return found


def measure(programs, folder, count, rounds):
    """The rounds over a container of so many rows."""
    lines = container(count, folder / f"rows{count}")
    return [one_round(programs, folder, count, lines) for _ in range(rounds)]


def main():
    words = argparse.ArgumentParser(description=__doc__, formatter_class=argparse.RawDescriptionHelpFormatter)
    words.add_argument("--rounds", type=int, default=5)
    words.add_argument("--rows", type=int, default=1_000_000, help="of the largest container")
    args = words.parse_args()
    with tempfile.TemporaryDirectory() as name:
        folder = pathlib.Path(name)
        container(0, folder / "rows0")
        programs = print_rows(folder), avro_c_decoder(folder)
        count = 10_000
        while True:
            count = min(count, args.rows)
            found = measure(programs, folder, count, args.rounds)
            ours = statistics.median(printed for printed, _ in found)
            theirs = statistics.median(decoded for _, decoded in found)
            ratio = statistics.median(decoded / printed for printed, decoded in found)
            print(f"{count:9} rows: {count / ours / 1e6:.3f} M rows/s, {ours / count * 1e9:.0f} ns a row; "
                  f"Avro C {count / theirs / 1e6:.3f} M rows/s; ratio {ratio:.2f}", flush=True)
            if count == args.rows:
                break
            count *= 10


main()
