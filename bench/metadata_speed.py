#!/usr/bin/env python3
"""Reading table metadata of 10,000 snapshots against that of 1,000, through `snapshots`.

Each snapshot has the members that other writers give it, and a sealed key of its manifest list. What is
printed is compared with the snapshots that were written. The processor time for a snapshot of the long
file may be 1.5 times that of the short one; else it ends with status 1.

Usage: bench/metadata_speed [--rounds N]
"""
import argparse
import base64
import json
import pathlib
import resource
import statistics
import subprocess
import sys
import tempfile

ROOT = pathlib.Path(__file__).resolve().parent.parent
PROGRAM = ROOT / "crates" / "iceberg_cli" / "out" / "iceberg_cli"
SHORT, LONG = 1000, 10000
MOST = 1.5


def snapshot(number):
    """The members of a snapshot."""
    return {
        "snapshot-id": number,
        "parent-snapshot-id": number - 1,
        "sequence-number": number,
        "timestamp-ms": 1700000000000 + number,
        "manifest-list": f"file:///table/metadata/snap-{number}-1-{number:032x}.avro",
        "summary": {"operation": "append", "added-data-files": "1", "added-records": "10"},
        "schema-id": 0,
        "first-row-id": 10 * number,
        "added-rows": 10,
        "key-id": f"key-{number + 1}",
    }


def sealed_key(number):
    """The members of the entry of a list's key."""
    sealed = base64.b64encode(bytes((number + i) % 256 for i in range(75))).decode()
    return {"key-id": f"key-{number + 1}", "encrypted-by-id": "key-1", "encrypted-key-metadata": sealed}


def metadata(count):
    """Table metadata with so many snapshots."""
    numbers = range(1, count + 1)
    return {
        "format-version": 3,
        "table-uuid": "00010203-0405-4607-8809-0a0b0c0d0e0f",
        "location": "file:///table",
        "last-sequence-number": count,
        "last-updated-ms": 0,
        "last-column-id": 1,
        "schemas": [{"schema-id": 0, "type": "struct",
                     "fields": [{"id": 1, "name": "n", "required": True, "type": "long"}]}],
        "current-schema-id": 0,
        "partition-specs": [{"spec-id": 0, "fields": []}],
        "default-spec-id": 0,
        "last-partition-id": 999,
        "sort-orders": [{"order-id": 0, "fields": []}],
        "default-sort-order-id": 0,
        "properties": {"encryption.key-id": "m1"},
        "snapshots": [snapshot(number) for number in numbers],
        "current-snapshot-id": count,
        "next-row-id": 10 * count + 10,
        "encryption-keys": [{"key-id": "key-1", "encrypted-by-id": "m1", "encrypted-key-metadata": ""}]
                           + [sealed_key(number) for number in numbers],
    }


def expected(count):
    """What `snapshots` prints of it."""
    return "".join(f'{n} {n - 1} {n} {1700000000000 + n} "append" 10\n' for n in range(1, count + 1))


def seconds(folder):
    """The processor time of one run, and what was printed."""
    before = resource.getrusage(resource.RUSAGE_CHILDREN)
    run = subprocess.run([PROGRAM, "snapshots", folder], stdout=subprocess.PIPE, check=True)
    after = resource.getrusage(resource.RUSAGE_CHILDREN)
    return after.ru_utime + after.ru_stime - before.ru_utime - before.ru_stime, run.stdout.decode()


def measure(rounds, count):
    """The processor time for one snapshot, in microseconds: the median of some rounds."""
    with tempfile.TemporaryDirectory() as name:
        folder = pathlib.Path(name)
        (folder / "metadata").mkdir()
        path = folder / "metadata" / "v1.metadata.json"
        path.write_text(json.dumps(metadata(count), separators=(",", ":")))
        times = []
        for _ in range(rounds):
            time, printed = seconds(folder)
            if printed != expected(count):
                sys.exit("metadata_speed: the snapshots aren't those that were written")
            times.append(time)
    return statistics.median(times) / count * 1e6


def main():
    """Measures both files, and compares the time for a snapshot."""
    parser = argparse.ArgumentParser(description=__doc__)
    parser.add_argument("--rounds", type=int, default=9)
    rounds = parser.parse_args().rounds
    if not PROGRAM.exists():
        print("metadata_speed: skipped, the program isn't built (rt run in crates/iceberg_cli)")
        return 0
    short, long = measure(rounds, SHORT), measure(rounds, LONG)
    print(f"{SHORT} snapshots: {short:.1f} us each; {LONG}: {long:.1f} us each; ratio {long / short:.2f}")
    return 0 if long <= MOST * short else 1


if __name__ == "__main__":
    sys.exit(main())
