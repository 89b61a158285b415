#!/usr/bin/env python3
"""Times the program `amf` on large inputs, and compares it with md5sum on the same bytes.

    bench/bench.py [MB [NAME..]]

Makes inputs of MB million bytes (16 where none is said), the same in each run, or those of the names alone. `canon` reads
one value, and `same` two of half the size; some are converted between AMF 3 and AMF 0, and the objects are checked and
listed. `gen` makes a graph of a million nodes, and its line stands below that of `canon` on the value that it makes. Each is
run five times, in turn with md5sum, and the best run is printed: the status, the processor time, the speed, the most memory
held (never less than this script's own 15 MB), and the ratio of the time to that of md5sum. A run that takes longer than a
minute is ended, which is then its status, and not repeated.
"""
import os
import random
import signal
import struct
import subprocess
import sys
import tempfile
import time
from pathlib import Path

ROOT = Path(__file__).resolve().parent.parent
PROGRAM = ROOT / "out/amf"
RUNS = 5
PATIENCE = 60


# The parts of AMF 3.

def u29(number):
    """A number of 29 bits, in the fewest bytes."""
    if number < 0x80:
        return bytes([number])
    if number < 0x4000:
        return bytes([0x80 | number >> 7, number & 0x7F])
    if number < 0x20_0000:
        return bytes([0x80 | number >> 14, 0x80 | number >> 7 & 0x7F, number & 0x7F])
    return bytes([0x80 | number >> 22, 0x80 | number >> 15 & 0x7F, 0x80 | number >> 8 & 0x7F, number & 0xFF])


def name(text):
    return u29(2 * len(text) + 1) + text


def text(content):
    return b"\x06" + name(content)


def integer(number):
    return b"\x04" + u29(number)


def double(number):
    return b"\x05" + struct.pack(">d", number)


def array(items):
    return b"\x09" + u29(2 * len(items) + 1) + b"\x01" + b"".join(items)


def array_of(item, size):
    """An array of items, each made from its place, until it has so many bytes."""
    items, room = [], size - 6
    while room > 0:
        items.append(item(len(items)))
        room -= len(items[-1])
    return array(items[:-1] if room < 0 else items)


# The parts of AMF 0.

def short(content):
    return struct.pack(">H", len(content)) + content


def number0(number):
    return b"\x00" + struct.pack(">d", number)


def array0_of(item, size):
    """A strict array of items, each made from its place, until it has so many bytes."""
    items, room = [], size - 5
    while room > 0:
        items.append(item(len(items)))
        room -= len(items[-1])
    items = items[:-1] if room < 0 else items
    return b"\x0A" + struct.pack(">I", len(items)) + b"".join(items)


# The inputs: each is one value of about so many bytes.

def integers(size, dice):
    return array_of(lambda place: integer(dice.randrange(1000)), size)


def repeated_texts(size, dice):
    texts = [text(dice.randbytes(dice.randrange(2, 21)).hex().encode()) for _ in range(1000)]
    return array_of(lambda place: dice.choice(texts), size)


def distinct_texts(size, dice):
    def item(place):
        front = b"%d-" % place
        return text(front + dice.randbytes(8).hex().encode()[: 13 + place % 7 - len(front)])
    return array_of(item, size)


def objects(size, dice):
    traits = b"\x43" + name(b"Point") + name(b"x") + name(b"y") + name(b"on") + name(b"label")

    def item(place):
        label = b"\x06" + u29(2 * 4)  # The fifth text of the table is the name `label`.
        return b"\x0A" + (b"\x01" if place else traits) + integer(place % 5000) + double(place / 7) + b"\x03" + label
    return array_of(item, size)


def dynamic_objects(size, dice):
    def item(place):
        front = b"\x0A" + (b"\x01" if place else b"\x0B\x01")
        names = [u29(0), u29(2), u29(6)] if place else [name(b"id"), name(b"name"), name(b"tags")]
        tags = array([integer(dice.randrange(100)) for _ in range(3)])
        values = [integer(place % 100_000), text(b"user%d" % dice.randrange(10**6)), tags]
        return front + b"".join(n + v for n, v in zip(names, values)) + b"\x01"
    return array_of(item, size)


def vectors_and_dictionaries(size, dice):
    def item(place):
        number = dice.randrange(100)
        kind = place % 4
        if kind == 0:
            return b"\x0D\x07\x00" + struct.pack(">3i", number, -number, place)
        if kind == 1:
            return b"\x0F\x05\x01" + struct.pack(">2d", number / 3, place)
        if kind == 2:
            return b"\x10\x05\x00\x01" + integer(number) + b"\x01"
        return b"\x11\x05\x00" + integer(number) + b"\x02" + integer(number + 1) + b"\x03"
    return array_of(item, size)


def empty_arrays(size, dice):
    return array([b"\x09\x01\x01"] * ((size - 6) // 3))


def byte_array(size, dice):
    return b"\x0C" + u29(2 * (size - 5) + 1) + dice.randbytes(size - 5)


def nested_arrays(size, dice):
    return b"\x09\x03\x01" * (size * 5 // 16) + b"\x01"


def graph(size, dice):
    """Arrays of three references each, to arrays that have begun before."""
    def item(place):
        return array([b"\x09" + u29(2 * dice.randrange(place + 2)) for _ in range(3)])
    return array_of(item, size)


def long_text(size, dice):
    """One text of half the size, and references to it."""
    return array([text(b"a" * (size // 2))] + [b"\x06\x00"] * (size // 4 - 6))


def records0(size, dice):
    """Anonymous objects of AMF 0, each with a number, a text and an array of three numbers."""
    def item(place):
        tags = b"\x0A\x00\x00\x00\x03" + b"".join(number0(dice.randrange(100)) for _ in range(3))
        values = [number0(place % 100_000), b"\x02" + short(b"user%d" % dice.randrange(10**6)), tags]
        pairs = zip([b"id", b"name", b"tags"], values)
        return b"\x03" + b"".join(short(n) + v for n, v in pairs) + b"\x00\x00\x09"
    return array0_of(item, size)


def made(nodes):
    """The value that `gen --seed 1` makes: an array of objects that name each other, by a linear congruential generator."""
    number, items = 1, []
    for place in range(1, nodes):
        number = (1103515245 * number + 12345) % 2**31
        front = b"\x0A\x01" if place > 1 else b"\x0A\x0B\x01"
        key, partner = (u29(0), u29(2)) if place > 1 else (name(b"k"), name(b"p"))
        reference = b"\x09\x00" if number % (place + 1) == 0 else b"\x0A" + u29(2 * (number % (place + 1)))
        items.append(front + key + integer(number // 65536) + partner + reference + b"\x01")
    return array(items)


def million_nodes(size, dice):
    return made(1_000_000)


INPUTS = [
    integers, repeated_texts, distinct_texts, objects, dynamic_objects, vectors_and_dictionaries,
    empty_arrays, byte_array, nested_arrays, graph, long_text,
]

# The inputs that are converted, with the formats.
CONVERTED = [
    (records0, "amf0", "amf3"), (records0, "amf0", "amf0"), (objects, "amf3", "amf0"), (dynamic_objects, "amf3", "amf0"),
]

# What is done with the objects beside.
OTHERS = [["check"], ["show"]]


# Running.

def run(words, path):
    """The status, the seconds of processor time and the bytes of memory of one run."""
    with open(path, "rb") as bytes_in:
        child = subprocess.Popen(words, stdin=bytes_in, stdout=subprocess.DEVNULL, stderr=subprocess.DEVNULL)
    signal.alarm(PATIENCE)
    try:
        _, code, usage = os.wait4(child.pid, 0)
    except TimeoutError:
        child.kill()
        _, code, usage = os.wait4(child.pid, 0)
    signal.alarm(0)
    child.returncode = os.waitstatus_to_exitcode(code)
    return child.returncode, usage.ru_utime + usage.ru_stime, usage.ru_maxrss * 1024


def give_up(number, frame):
    raise TimeoutError


def best(words, path):
    """The best of the runs of the program, and of those of md5sum between them."""
    runs, sums, spent = [], [], 0
    while len(runs) < RUNS and spent < PATIENCE / 2:
        began = time.monotonic()
        runs.append(run(words, path))
        spent += time.monotonic() - began
        sums.append(run(["md5sum"], path)[1])
    return min(runs, key=lambda each: each[1]), min(sums)


def write_input(make, size, copies, path):
    """Writes an input, in a process of its own: what this one holds would be counted as the program's memory."""
    child = os.fork()
    if child == 0:
        path.write_bytes(make(size, random.Random(1)) * copies)
        os._exit(0)
    os.waitpid(child, 0)


def show(words, make, path):
    (status, seconds, memory), sums = best([PROGRAM, *words], path)
    mega = path.stat().st_size / 1e6
    ending = status if status >= 0 else "ended"
    command = "".join(word.replace("--from=", " ").replace("--to=", " to ") for word in words if not word.startswith("--s"))
    print(f"{command:20}{make.__name__:25}{mega:6.2f}{ending:>8}{seconds:11.3f}{mega / seconds:8.1f}", end="")
    print(f"{memory / 1e6:11.0f}{seconds / sums:10.2f}", flush=True)


def main():
    size = int(float(sys.argv[1] if len(sys.argv) > 1 else 16) * 1e6)
    chosen = sys.argv[2:] or [make.__name__ for make in INPUTS + [records0, million_nodes]]
    subprocess.run([ROOT / "amf"], stderr=subprocess.DEVNULL)  # Builds the program, where it is not new.
    if not PROGRAM.exists():
        sys.exit("the program could not be built")
    signal.signal(signal.SIGALRM, give_up)
    print(f"{'':45}{'MB':>6}{'status':>8}{'seconds':>11}{'MB/s':>8}{'memory MB':>11}{'x md5sum':>10}")
    with tempfile.TemporaryDirectory() as folder:
        path = Path(folder) / "input"
        for make in INPUTS:
            if make.__name__ in chosen:
                write_input(make, size, 1, path)
                show(["canon"], make, path)
                write_input(make, size // 2, 2, path)
                show(["same"], make, path)
        for make, source, target in CONVERTED:
            if make.__name__ in chosen:
                write_input(make, size, 1, path)
                show(["canon", f"--from={source}", f"--to={target}"], make, path)
        if objects.__name__ in chosen:
            write_input(objects, size, 1, path)
            for words in OTHERS:
                show(words, objects, path)
        if million_nodes.__name__ in chosen:
            write_input(million_nodes, size, 1, path)
            show(["canon"], million_nodes, path)
            show(["gen", "--seed=1", "--size=1000000"], million_nodes, path)


if __name__ == "__main__":
    main()
