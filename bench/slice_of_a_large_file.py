#!/usr/bin/env python3
"""The last 100 bytes of a stream of 512 MiB against the same of one of 4 MiB, through `cat-file`.

Each stream has blocks of 1 MiB, of which the first and the last are sealed and the others are holes, for
no other block is touched. The peak memory of the two may differ by 4 MiB, and the processor time of the
large one may be twice that of the small one; else it ends with status 1.

Usage: bench/slice_of_a_large_file [--rounds N] [--mib N]
"""
import argparse
import os
import pathlib
import statistics
import subprocess
import sys
import tempfile
import time

from cryptography.hazmat.primitives.ciphers.aead import AESGCM

ROOT = pathlib.Path(__file__).resolve().parent.parent
PROGRAM = ROOT / "crates" / "iceberg_cli" / "out" / "iceberg_cli"
BLOCK = 1 << 20
SLICE = 100
PATH = "data/large"
KEY = bytes(range(16))
TEXT = bytes(number % 251 for number in range(BLOCK))


def cipher_block(number):
    """A cipher block of `TEXT` (Iceberg, AES GCM Stream: nonce, ciphertext, tag)."""
    nonce = bytes(8) + number.to_bytes(4, "big")
    return nonce + AESGCM(KEY).encrypt(nonce, TEXT, PATH.encode() + number.to_bytes(4, "little"))


def make(folder, blocks):
    """Writes a stream of so many blocks; its length."""
    target = folder / PATH
    target.parent.mkdir(parents=True)
    with open(target, "wb") as file:
        file.write(b"AGS1" + BLOCK.to_bytes(4, "little") + cipher_block(0))
        file.seek(8 + (blocks - 1) * (BLOCK + 28))
        file.write(cipher_block(blocks - 1))
        return file.tell()


def full_pipe():
    """A pipe with no room, so that whoever writes to it waits, and how many bytes are in it."""
    read_end, write_end = os.pipe()
    os.set_blocking(write_end, False)
    count = 0
    try:
        while True:
            count += os.write(write_end, bytes(4096))
    except BlockingIOError:
        os.set_blocking(write_end, True)
    return read_end, write_end, count


def peak_memory(child):
    """The peak memory in KiB of a process, once it waits for room in its output or has ended."""
    proc = pathlib.Path("/proc") / str(child.pid)
    waits = 0
    while waits < 5:
        state = (proc / "stat").read_text().rpartition(")")[2].split()[0]
        if state == "Z":
            sys.exit("cat-file ended before it wrote")
        waits = waits + 1 if state == "S" else 0
        time.sleep(0.002)
    lines = (proc / "status").read_text().splitlines()
    return next(int(line.split()[1]) for line in lines if line.startswith("VmHWM:"))


def cost(folder, blocks, length):
    """One run: its peak memory in KiB, and its processor time in seconds."""
    words = [PROGRAM, "cat-file", folder, PATH, "--key", KEY.hex(), "--length", str(length),
             "--prefix", PATH, "--skip", str(blocks * BLOCK - SLICE), "--take", str(SLICE)]
    read_end, write_end, count = full_pipe()
    child = subprocess.Popen([str(word) for word in words], stdout=write_end)
    os.close(write_end)
    peak = peak_memory(child)
    with open(read_end, "rb") as output:
        found = output.read()[count:]
    _, status, usage = os.wait4(child.pid, 0)
    if status != 0 or found != TEXT[-SLICE:]:
        sys.exit(f"cat-file ended with {os.waitstatus_to_exitcode(status)} and {len(found)} bytes")
    return peak, usage.ru_utime + usage.ru_stime


def main():
    words = argparse.ArgumentParser()
    words.add_argument("--rounds", type=int, default=15)
    words.add_argument("--mib", type=int, default=512)
    options = words.parse_args()
    if not PROGRAM.exists():
        subprocess.run(["rt", "run", "--", "--version"], cwd=ROOT / "crates" / "iceberg_cli", check=True)
    with tempfile.TemporaryDirectory() as name:
        costs = {}
        files = {}
        for mib in (4, options.mib):
            folder = pathlib.Path(name) / str(mib)
            folder.mkdir()
            files[mib] = (folder, mib, make(folder, mib))
            costs[mib] = []
        for _ in range(options.rounds):
            for mib, file in files.items():
                costs[mib].append(cost(*file))
    memory = {mib: max(row[0] for row in rows) for mib, rows in costs.items()}
    seconds = {mib: statistics.median(row[1] for row in rows) for mib, rows in costs.items()}
    for mib in costs:
        print(f"{mib:4} MiB: peak memory {memory[mib] / 1024:.1f} MiB, processor {seconds[mib] * 1000:.1f} ms")
    small, large = 4, options.mib
    within = memory[large] - memory[small] <= 4096 and seconds[large] <= 2 * seconds[small]
    print("within 4 MiB and twice the time" if within else "NOT within 4 MiB and twice the time")
    sys.exit(0 if within else 1)


if __name__ == "__main__":
    main()
