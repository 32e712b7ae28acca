#!/usr/bin/env python3
"""Speed of sealing and opening files through the program, beside OpenSSL's AES-128-GCM.

Each round seals 64 MiB by `seal-file` in blocks of 1 MiB, opens that file by `cat-file`, and runs
`openssl speed` on pieces of 1 MiB: with the processor's AES and carry-less instructions, without these
two alone (its code for SSSE3 and AVX), and without any (OPENSSL_ia32cap=0:0, its portable code). It prints
MB/s of user time, as `openssl speed` counts it, and of the program those with the system's time too, which has
the reading and writing of files; the medians over the rounds; and the medians of each round's ratios of user
time. What was opened is compared with what was sealed.

Usage: bench/stream_speed [--rounds N] [--mib N]
"""
import argparse
import os
import pathlib
import resource
import shutil
import statistics
import subprocess
import sys
import tempfile

ROOT = pathlib.Path(__file__).resolve().parent.parent
PROGRAM = ROOT / "crates" / "iceberg_cli" / "out" / "iceberg_cli"
PIECE = 1 << 20
PATH = "data/bench"
COMMANDS = ("seal-file", "cat-file")
WITH_SYSTEM = ", with system"
# OpenSSL with all of the processor, without its AES and carry-less instructions, and as portable code.
OPENSSL = {
    "OpenSSL, hardware on": None,
    "OpenSSL, SSSE3 alone": "~0x200000200000000",
    "OpenSSL, hardware off": "0:0",
}


def processor_seconds(words, stdin, stdout):
    """Runs a command to its end; its user time, and the same with its system time."""
    before = resource.getrusage(resource.RUSAGE_CHILDREN)
    subprocess.run(words, stdin=stdin, stdout=stdout, check=True)
    after = resource.getrusage(resource.RUSAGE_CHILDREN)
    user = after.ru_utime - before.ru_utime
    return user, user + after.ru_stime - before.ru_stime


def zigzag(data, at):
    """The number that begins at a place (Avro, "Binary encoding"), and the place after it."""
    number = shift = 0
    while True:
        byte = data[at]
        number |= (byte & 0x7F) << shift
        at, shift = at + 1, shift + 7
        if byte < 0x80:
            return (number >> 1) ^ -(number & 1), at


def key_and_length(line):
    """The key and the file's length of the key metadata that `seal-file` prints."""
    data = bytes.fromhex(line.strip())
    count, at = zigzag(data, 1)
    key, at = data[at:at + count], at + count
    count, at = zigzag(data, at + 1)
    length, _ = zigzag(data, at + count + 1)
    return key, length


def seal(folder, plain):
    with open(plain, "rb") as text, open(folder / "meta", "wb") as meta:
        return processor_seconds([PROGRAM, "seal-file", folder / "t", PATH, "--block", str(PIECE)], text, meta)


def open_file(folder, copy):
    key, length = key_and_length((folder / "meta").read_text())
    words = [PROGRAM, "cat-file", folder / "t", PATH, "--key", key.hex(), "--length", str(length), "--prefix", PATH]
    with open(copy, "wb") as out:
        return processor_seconds(words, subprocess.DEVNULL, out)


def openssl(capabilities):
    """Bytes a second of OpenSSL's AES-128-GCM over pieces of 1 MiB; None where it can't say."""
    environment = {name: value for name, value in os.environ.items() if name != "OPENSSL_ia32cap"}
    if capabilities:
        environment["OPENSSL_ia32cap"] = capabilities
    words = ["openssl", "speed", "-mr", "-seconds", "1", "-bytes", str(PIECE), "-evp", "aes-128-gcm"]
    done = subprocess.run(words, env=environment, capture_output=True, text=True, check=False)
    rates = [line.split(":")[-1] for line in done.stdout.split("\n") if line.startswith("+F")]
    return float(rates[-1]) if done.returncode == 0 and rates else None


def one_round(folder, plain, copy, size, rates):
    shutil.rmtree(folder / "t", ignore_errors=True)
    (folder / "t").mkdir()
    for name, (user, both) in (("seal-file", seal(folder, plain)), ("cat-file", open_file(folder, copy))):
        rates[name].append(size / user)
        rates[name + WITH_SYSTEM].append(size / both)
    for name, capabilities in OPENSSL.items():
        rate = openssl(capabilities) if shutil.which("openssl") else None
        if rate:
            rates[name].append(rate)


def report(rates):
    medians = {name: statistics.median(found) for name, found in rates.items() if found}
    for name, median in medians.items():
        rounds = " ".join(f"{rate / 1e6:.1f}" for rate in rates[name])
        print(f"{name:23} {median / 1e6:8.1f} MB/s   ({rounds})")
    for name in COMMANDS:
        for other in OPENSSL:
            ratios = [ours / theirs for ours, theirs in zip(rates[name], rates[other])]
            if ratios:
                rounds = " ".join(f"{ratio:.2f}" for ratio in sorted(ratios))
                print(f"{name} / {other}: {statistics.median(ratios):.2f}   ({rounds})")
    if "OpenSSL, hardware on" not in medians:
        print("openssl isn't here: no ratios")


def main():
    words = argparse.ArgumentParser(description=__doc__, formatter_class=argparse.RawDescriptionHelpFormatter)
    words.add_argument("--rounds", type=int, default=5)
    words.add_argument("--mib", type=int, default=64, help="how many MiB a round seals, 64 at most")
    args = words.parse_args()
    subprocess.run([ROOT / "iceberg", "--version"], stdout=subprocess.DEVNULL, check=True)
    size = args.mib << 20
    rates = {name: [] for name in (*COMMANDS, *(name + WITH_SYSTEM for name in COMMANDS), *OPENSSL)}
    with tempfile.TemporaryDirectory() as name:
        folder = pathlib.Path(name)
        plain, copy = folder / "plain", folder / "copy"
        plain.write_bytes(os.urandom(size))
        for _ in range(args.rounds):
            one_round(folder, plain, copy, size, rates)
            if plain.read_bytes() != copy.read_bytes():
                sys.exit("what was opened isn't what was sealed")
    report(rates)


main()
