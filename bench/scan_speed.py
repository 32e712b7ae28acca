#!/usr/bin/env python3
"""Rows a second of `scan` over tables of 10,000 rows, 100,000 and 1,000,000, beside what a user has instead.

A table has the columns `n` (long, required) and `s` (string, null in each tenth row), ten data files with recorded
bounds of `n`, in container blocks of 64 KiB and cipher blocks of 1 MiB. It is spelled and sealed by the functions of
tools/check_sealed_table, whose keys are Python's `cryptography`. Each round runs `scan` over all rows, with a range of
100 rows that the bounds leave in one file, and with `--skip` of all rows but ten; and beside it what a user has
instead: the decryption of the same data files by `cryptography` (OpenSSL, with the processor's instructions), and then
a program in Python that prints their rows, by `fastavro` where it is installed and else by a reader of its own, and
`avrocat` of each and SQLCipher's dump of the same rows, where these are installed. What `scan` and the program in Python
write is compared with the rows that were written. What is counted is the processor's time of each process, its user's
and the system's; it prints the medians over the rounds, the ratios to the time of all rows, and the peak memory of
`scan` beside that of `--version` and the cipher blocks that a scan holds, one of each open file.

Usage: bench/scan_speed [--rounds N] [--rows N]
"""
import argparse
import importlib.machinery
import importlib.util
import json
import os
import pathlib
import shutil
import statistics
import subprocess
import sys
import tempfile

ROOT = pathlib.Path(__file__).resolve().parent.parent
PROGRAM = ROOT / "crates" / "iceberg_cli" / "out" / "iceberg_cli"
CIPHER_BLOCK, CONTAINER_BLOCK, FILES = 1 << 20, 1 << 16, 10

OPENED = """
import struct, sys
from cryptography.hazmat.primitives.ciphers.aead import AESGCM
folder, target = sys.argv[1:]
opener = AESGCM(bytes(range(16)))
for at in range(10):
    data = open(f"{folder}/data/{at}", "rb").read()
    size, count, place = struct.unpack("<I", data[4:8])[0] + 28, 0, 8
    with open(f"{target}/{at}.avro", "wb") as out:
        while place < len(data):
            block = data[place:place + size]
            out.write(opener.decrypt(block[:12], block[12:], f"data/{at}".encode() + struct.pack("<I", count)))
            place, count = place + size, count + 1
"""

SHOWN = """
import json, sys
def number(data, at):
    value, shift = 0, 0
    while True:
        byte = data[at]
        at += 1
        value |= (byte & 127) << shift
        shift += 7
        if byte < 128:
            return (value >> 1) ^ -(value & 1), at
def part(data, at):
    size, at = number(data, at)
    return data[at:at + size], at + size
def datum(of, data, at):
    if of == "long":
        return number(data, at)
    if of == "string":
        text, at = part(data, at)
        return text.decode(), at
    if of == "null":
        return None, at
    branch, at = number(data, at)
    return datum(of[branch], data, at)
def rows(data):
    properties, at = {}, 4
    count, at = number(data, at)
    while count:
        for _ in range(count):
            name, at = part(data, at)
            properties[name], at = part(data, at)
        count, at = number(data, at)
    fields = [field["type"] for field in json.loads(properties[b"avro.schema"])["fields"]]
    at += 16
    while at < len(data):
        count, at = number(data, at)
        _, at = number(data, at)
        for _ in range(count):
            row = []
            for of in fields:
                value, at = datum(of, data, at)
                row.append(value)
            yield row
        at += 16
def all_rows(path):
    try:
        import fastavro
    except ImportError:
        yield from rows(open(path, "rb").read())
        return
    with open(path, "rb") as opened:
        for row in fastavro.reader(opened):
            yield list(row.values())
for at in range(10):
    for row in all_rows(f"{sys.argv[1]}/{at}.avro"):
        sys.stdout.write(json.dumps(row, separators=(",", ":")) + "\\n")
"""

DUMPED = "PRAGMA key = 'k'; SELECT json_array(n, s) FROM t ORDER BY n;"


def writer():
    """The functions of tools/check_sealed_table, with larger cipher blocks."""
    loader = importlib.machinery.SourceFileLoader("sealed_table", str(ROOT / "tools" / "check_sealed_table"))
    spec = importlib.util.spec_from_loader("sealed_table", loader)
    made = importlib.util.module_from_spec(spec)
    sys.dont_write_bytecode = True
    loader.exec_module(made)
    made.BLOCK = CIPHER_BLOCK
    return made


def row(n):
    """A row: each tenth text is null."""
    return [n, None if n % 10 == 3 else f"text of row {n}"]


def line(n):
    """The line of a row."""
    return json.dumps(row(n), separators=(",", ":")) + "\n"


def data_file(sealed, numbers):
    """A data file of rows."""
    schema = sealed.record("r", [sealed.field("n", "long", 1), sealed.field("s", ["null", "string"], 2)])
    blocks, size = [[]], 0
    for n in numbers:
        text = row(n)[1]
        spelled = sealed.number(n) + (b"\x00" if text is None else b"\x02" + sealed.sized(text))
        if size >= CONTAINER_BLOCK:
            blocks.append([])
            size = 0
        blocks[-1].append(spelled)
        size += len(spelled)
    return sealed.container(schema, blocks)


def table(sealed, count, folder):
    """Writes a table of so many rows, with its keyring."""
    objects, entries = {}, []
    for at in range(FILES):
        numbers = range(at * count // FILES, (at + 1) * count // FILES)
        path = f"data/{at}"
        objects[path] = sealed.sealed(path, data_file(sealed, numbers), at)
        entries.append(sealed.entry(1, path, len(objects[path]), len(numbers), True, (numbers[0], numbers[-1])))
    objects["meta/m"] = sealed.sealed("meta/m", sealed.manifest([entries]), 11)
    rows = [("meta/m", len(objects["meta/m"]), (FILES, 0, 0), 0)]
    objects["meta/list"] = sealed.sealed("meta/list", sealed.manifest_list(rows), 12)
    meta = dict(sealed.table()[1])
    key = sealed.metadata("meta/list", len(objects["meta/list"]))
    meta["encryption-keys"] = [
        {"key-id": "k", "encrypted-key-metadata": sealed.sealed_key(sealed.MASTER, "k", sealed.TABLE_KEY, 4)},
        {"key-id": "l", "encrypted-by-id": "k", "encrypted-key-metadata": sealed.sealed_key(sealed.TABLE_KEY, "l", key, 5)}]
    meta["snapshots"] = [{"snapshot-id": 77, "sequence-number": 4, "timestamp-ms": 3, "summary": {"operation": "append"},
                          "manifest-list": f"{sealed.LOCATION}/meta/list", "key-id": "l"}]
    objects["metadata/v1.metadata.json"] = json.dumps(meta, separators=(",", ":")).encode()
    for path, data in objects.items():
        (folder / path).parent.mkdir(parents=True, exist_ok=True)
        (folder / path).write_bytes(data)
    (folder.parent / "keys").write_text(f"m={sealed.MASTER.hex()}\n")


def used(words, target):
    """The processor's time of a program, whose output goes to a file, and its peak memory in bytes."""
    with open(target, "wb") as out, subprocess.Popen(words, stdout=out) as process:
        _, status, usage = os.wait4(process.pid, 0)
        process.returncode = os.waitstatus_to_exitcode(status)
    if process.returncode != 0:
        sys.exit(f"scan_speed: {words[0]} ended with {process.returncode}")
    return usage.ru_utime + usage.ru_stime, usage.ru_maxrss * 1024


def seconds(words, target):
    """The processor's time of a program."""
    return used(words, target)[0]


def check(name, out, numbers):
    """What a program wrote are the lines of these rows."""
    if out.read_text() != "".join(map(line, numbers)):
        sys.exit(f"scan_speed: {name} didn't write the rows that were written")


def scan(folder, name, options, numbers):
    """The time of a scan that writes these rows, and its peak memory."""
    out = folder.parent / "rows"
    found = used([PROGRAM, "scan", folder, "--keys", folder.parent / "keys", *options], out)
    check(name, out, numbers)
    return found


def dump_of(count, file):
    """Makes a database of so many rows, where SQLCipher is installed."""
    if shutil.which("sqlcipher") is None:
        return
    values = "".join(f"INSERT INTO t VALUES({n}, {'NULL' if text is None else repr(text)});\n" for n, text in map(row, range(count)))
    made = f"PRAGMA key = 'k';\nCREATE TABLE t(n INTEGER PRIMARY KEY, s TEXT);\nBEGIN;\n{values}COMMIT;\n"
    subprocess.run(["sqlcipher", file], input=made.encode(), stdout=subprocess.DEVNULL, check=True)


def instead(folder, count):
    """The times of decrypting the data files by OpenSSL and of printing their rows in Python, of avrocat, and of SQLCipher's
    dump of the same rows; none of what isn't installed."""
    plain, out = folder.parent / "plain", folder.parent / "rows"
    plain.mkdir(exist_ok=True)
    opened = seconds([sys.executable, "-c", OPENED, folder, plain], out)
    printed = seconds([sys.executable, "-c", SHOWN, plain], out)
    check("Python", out, range(count))
    shown = dumped = None
    if shutil.which("avrocat") is not None:
        shown = sum(seconds(["avrocat", plain / f"{at}.avro"], out) for at in range(FILES))
    if shutil.which("sqlcipher") is not None:
        dumped = seconds(["sqlcipher", folder.parent / "rows.db", DUMPED], out)
    return opened, printed, shown, dumped


def held(folder):
    """The bytes of the cipher blocks that a scan holds: one of the list, of the manifest and of the largest data file."""
    largest = max((folder / f"data/{at}").stat().st_size for at in range(FILES))
    sizes = [largest, *((folder / path).stat().st_size for path in ("meta/list", "meta/m"))]
    return sum(min(size - 8, CIPHER_BLOCK + 28) for size in sizes)


def measure(sealed, count, rounds):
    """The medians over a table of so many rows."""
    with tempfile.TemporaryDirectory() as name:
        folder = pathlib.Path(name) / "table"
        table(sealed, count, folder)
        dump_of(count, folder.parent / "rows.db")
        low = count // 2
        found = []
        for _ in range(rounds):
            every, peak = scan(folder, "all", [], range(count))
            least = used([PROGRAM, "--version"], folder.parent / "rows")[1]
            ranged, _ = scan(folder, "range", ["--range", "n", "--low", str(low), "--high", str(low + 99)], range(low, low + 100))
            skipped, _ = scan(folder, "skip", ["--skip", str(count - 10)], range(count - 10, count))
            found.append((every, ranged, skipped, peak, least, held(folder), *instead(folder, count)))
    return [None if None in times else statistics.median(times) for times in zip(*found)]


def beside(name, time, every):
    """A program's time, and its ratio to that of all rows."""
    return f"{name} isn't here" if time is None else f"{name} {time * 1e3:.0f} ms ({time / every:.2f})"


def main():
    """Measures tables of 10,000 rows on."""
    words = argparse.ArgumentParser(description=__doc__, formatter_class=argparse.RawDescriptionHelpFormatter)
    words.add_argument("--rounds", type=int, default=5)
    words.add_argument("--rows", type=int, default=1_000_000, help="of the largest table")
    args = words.parse_args()
    if not PROGRAM.exists():
        print("scan_speed: skipped, the program isn't built (rt run in crates/iceberg_cli)")
        return
    sealed, count = writer(), 10_000
    while True:
        count = min(count, args.rows)
        every, ranged, skipped, peak, least, blocks, opened, printed, shown, dumped = measure(sealed, count, args.rounds)
        print(f"{count:8} rows: all {count / every / 1e6:.2f} M rows/s, {every / count * 1e9:.0f} ns a row; a range of 100 rows "
              f"{ranged * 1e3:.0f} ms; all but ten left out {skipped * 1e3:.0f} ms", flush=True)
        print("         instead: " + "; ".join([
            beside("decryption", opened, every), beside("and the rows in Python", opened + printed, every),
            beside("and avrocat", None if shown is None else opened + shown, every),
            beside("SQLCipher's dump", dumped, every)]))
        print(f"         peak memory {peak / 1e6:.1f} MB, of the program alone {least / 1e6:.1f} MB, of the blocks of open files "
              f"{blocks / 1e6:.1f} MB", flush=True)
        if count == args.rows:
            return
        count *= 10


main()
