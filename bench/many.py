#!/usr/bin/env python3
"""Compares the proved programs with the plain Rust program, byte for byte, on many random response files. Run by hand.

    (cd crates/fullmap && rt run < stdin); (cd crates/reducedmap && rt run < stdin); bench/many.py
    bench/many.py [--full PROGRAM] [--reduced PROGRAM] [--files COUNT] [--seed SEED]

The files are those of random feeders, with every form of their numbers; files with a few responses changed; and broken ones: fields
and records added, left out or replaced, bytes changed, files cut short or too long. A program that is not there is left out. The
first file on which two programs differ is kept in different.csv, and the status is then 1."""

import argparse
import collections
import os
import random
import subprocess
import sys
import tempfile
from pathlib import Path

sys.dont_write_bytecode = True
import response_files

HERE = Path(__file__).resolve().parent
CRATES = HERE.parent / "crates"


def size(chance):
    return chance.choice((chance.randint(1, 4), chance.randint(1, 12), chance.randint(1, 64)))


def table_of(chance):
    """Responses, and which buses have inverters: of a complete feeder, or of a feeder with an inverter at every metered bus."""
    metered = size(chance)
    buses = metered + chance.choice((0, 0, chance.randint(0, metered)))
    most = chance.choice((1, 3, 1_000, 1_000_000 // buses))
    lines = response_files.grow(chance, buses, most)
    table = response_files.responses(lines, metered)
    if buses > metered or chance.random() < 0.4:
        inverters = list(range(1, metered + 1))
    else:
        more = [bus for bus in range(1, metered + 1) if chance.random() < 0.5]
        inverters = sorted(set(response_files.ends(lines) + more))
    chance.shuffle(inverters)
    return table, inverters


def perturbed(chance, table):
    """A few responses changed, some with the mirrored one too."""
    for _ in range(chance.choice((1, 1, 2))):
        n, m = chance.randrange(len(table)), chance.randrange(len(table))
        if chance.random() < 0.4:
            m = n
        by = chance.choice((-1_000, -2, -1, 1, 2, 1_000, -table[n][m]))
        for row, place in {(n, m), (m, n)} if chance.random() < 0.6 else {(n, m)}:
            table[row][place] = max(min(table[row][place] + by, 1_000_000), -1_000_000)


def step(chance):
    return chance.choice((1, 2, 5, 100, 250, 999, 1_000)) * chance.choice((-1, 1))


def reworded(chance, field, is_change):
    """Another form of the same number."""
    form = chance.randrange(6)
    if form == 0 and "." in field:
        field = field.rstrip("0")
        field = field[:-1] if field.endswith(".") else field
    elif form == 1 and is_change and not field.startswith("-") and not int(field.replace(".", "")):
        field = "-" + field
    elif form == 2:
        sign, digits = ("-", field[1:]) if field.startswith("-") else ("", field)
        whole = digits.split(".")[0]
        field = sign + "0" * chance.randint(0, 4 - len(whole)) + digits
    return f'"{field}"' if chance.random() < 0.1 else field


FIELDS = (
    "", '""', '"', "0", "1", "2", "65", "9999", "10000", "01", "00001", "-0", "-1", "+1", "1.", ".5", "-", "-.", "1.0000", "0.000",
    "-0.000", "1.001", "-1.001", "1.000", "0.0000000001", "0.000000001", "0.123456789", "1000.0", "1234.567890123", "0.0000000000", "probe",
    "step", "Probe", '"probe"', '"st""ep"', '"1', '1"', '"1"', '" 1"', " 1", "1 ", '"1\r\n"', '"1,2"', "1e3", "0x1", "\t1", "é", "1\n",
)  # fmt: skip


def broken(chance, fields):
    """Fields and records added, left out and replaced."""
    for _ in range(chance.choice((1, 1, 2))):
        r = chance.choice((0, chance.randrange(len(fields)), chance.randrange(len(fields))))
        record = fields[r]
        k = chance.choice((0, 1, chance.randrange(len(record) + 1)))
        deed = chance.randrange(8)
        if deed == 0:
            record.insert(min(k, len(record)), chance.choice(FIELDS))
        elif deed == 1 and len(record) > 1:
            del record[min(k, len(record) - 1)]
        elif deed == 2:
            fields.insert(chance.randrange(1, len(fields) + 1), list(record))
        elif deed == 3 and len(fields) > 1:
            del fields[r]
        else:
            record[min(k, len(record) - 1)] = chance.choice(FIELDS)


def scratched(chance, file):
    """Bytes changed, added and left out, or the file cut short or made too long."""
    file = bytearray(file)
    for _ in range(chance.choice((1, 1, 3))):
        at = chance.randrange(len(file) + 1)
        byte = chance.choice(b'",\r\n .-0159a~\x00\x1f\x7f\x80\xff')
        deed = chance.randrange(6)
        if deed == 0:
            file.insert(at, byte)
        elif deed == 1 and at < len(file):
            del file[at]
        elif deed == 2 and at < len(file):
            file[at] = byte
        elif deed == 3:
            del file[at:]
        elif deed == 4:
            file += chance.choice((b"\r\n", b"\r", b"\n", b",", b'"', b"1", b"\r\n\r\n"))
        elif chance.random() < 0.3:
            file += b"0" * (65_536 - len(file) + chance.choice((-1, 0, 1)))
    return bytes(file)


def file_of(chance):
    table, inverters = table_of(chance)
    sort = chance.choice(("right", "right", "perturbed", "mute", "broken", "broken", "scratched"))
    if sort == "perturbed":
        perturbed(chance, table)
    steps = {m: step(chance) for m in inverters}
    fields = response_files.records(table, inverters, steps.get)
    if chance.random() < 0.5:
        for record in fields[1:]:
            record[:] = [reworded(chance, field, k > 1) for k, field in enumerate(record)]
    if sort == "mute":
        for _ in range(chance.randint(1, 3)):
            record = chance.choice(fields[1:])
            record[chance.randrange(2, len(record))] = ""
    if sort == "broken":
        broken(chance, fields)
    file = "".join(",".join(record) + "\r\n" for record in fields).encode("utf-8")
    if chance.random() < 0.3:
        file = file[:-2]
    return scratched(chance, file) if sort == "scratched" else file


def printed(command, file):
    return subprocess.run(command, input=file, stdout=subprocess.PIPE, check=True).stdout


def summary(text):
    lines = text.decode("ascii").split("\r\n")
    if lines[0] == "bus,parent,r":
        return "map"
    layer, number, _ = lines[1].split(",")
    return f"{layer} refusal {int(number):2}"


def main():
    parser = argparse.ArgumentParser()
    parser.add_argument("--full", default=str(CRATES / "fullmap" / "out" / "fullmap"))
    parser.add_argument("--reduced", default=str(CRATES / "reducedmap" / "out" / "reducedmap"))
    parser.add_argument("--files", type=int, default=1_000)
    parser.add_argument("--seed", type=int, default=1)
    args = parser.parse_args()
    with tempfile.TemporaryDirectory() as room:
        plain = os.path.join(room, "plain")
        subprocess.run(["rustc", "-O", "-o", plain, str(HERE / "plain.rs")], check=True)
        programs = [("complete", args.full), ("reduced", args.reduced)]
        programs = [(kind, program) for kind, program in programs if os.access(program, os.X_OK)]
        if not programs:
            sys.exit("neither program is there: rt run in its crate builds each")
        for kind, program in programs:
            chance = random.Random(args.seed)
            counts = collections.Counter()
            for number in range(1, args.files + 1):
                file = file_of(chance)
                proved, other = printed([program], file), printed([plain, kind], file)
                if proved != other:
                    Path("different.csv").write_bytes(file)
                    sys.exit(f"{kind}, file {number}, kept in different.csv: {proved[:300]} and {other[:300]}")
                counts[summary(proved)] += 1
            told = ", ".join(f"{what}: {count}" for what, count in sorted(counts.items()))
            print(f"{kind}: {args.files} files, the same bytes on each ({told})")


main()
