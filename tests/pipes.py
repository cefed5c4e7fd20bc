#!/usr/bin/env python3
"""Runs the two programs through ./run on pipes, as a caller would that writes slowly, or never ends its output.

Run at the project's root:  tests/pipes.py          takes the files of crates/file_cases/data and samples/

Two things that a run on files cannot show. Bytes that come singly, or in parts of any size, are read as the file is.
And a program answers as soon as it can: the input stays open, with no byte more than the answer needs, and the program
ends all the same.
"""
import pathlib
import random
import subprocess
import sys

from files import Input, statement_from_parts, windows_from_parts

SECONDS = 20  # a program that waits for bytes that it needs not waits for ever


def cases():
    """The program's word, the bytes, what must be printed, and how many bytes the answer needs.

    Files with a list of editions before them are not for these programs.
    """
    small = sorted(path for path in pathlib.Path("crates/file_cases/data").iterdir() if not path.name.startswith("e_"))
    for path in small + sorted(pathlib.Path("samples").glob("*.grd")) + sorted(pathlib.Path("samples").glob("*.cus")):
        grid = path.name.startswith("g_") or path.suffix == ".grd"
        source = Input(path.read_bytes())
        text = (windows_from_parts if grid else statement_from_parts)(source)
        yield path.name, "windows" if grid else "statement", path.read_bytes(), text, source.asked


def started(word):
    return subprocess.Popen(["./run", word, "/dev/stdin"], stdin=subprocess.PIPE, stdout=subprocess.PIPE, bufsize=0)


def printed_by(program):
    """Its output up to its end, with its input left as it is."""
    try:
        program.wait(SECONDS)
    except subprocess.TimeoutExpired:
        program.kill()
        return "it waits"
    return program.stdout.read().decode() if program.returncode == 0 else f"status {program.returncode}"


def fed(word, data, sizes):
    """What is printed where the bytes come in parts of these sizes, over and over.

    A program may end before it has them all.
    """
    program, at = started(word), 0
    try:
        while at < len(data):
            size = next(sizes)
            program.stdin.write(data[at:at + size])
            at += size
        program.stdin.close()
    except BrokenPipeError:
        pass
    return printed_by(program)


def left_open(word, data):
    """What is printed after these bytes, with the input still open."""
    program = started(word)
    program.stdin.write(data)
    said = printed_by(program)
    program.stdin.close()
    return said


def ones():
    while True:
        yield 1


def any_sizes():
    rng = random.Random(384)
    while True:
        yield rng.choice([1, 2, 3, 5, 100, 368, 383, 384, 385, 400, 3_000])


def build():
    """Both programs first, one after the other: a run that has to build would be taken for one that waits."""
    for word, sample in (("windows", "samples/printed.grd"), ("statement", "samples/printed.cus")):
        subprocess.run(["./run", word, sample], stdout=subprocess.DEVNULL, check=True)


def main():
    build()
    tried, wrong = 0, []
    for name, word, data, text, asked in cases():
        runs = [fed(word, data, ones()), fed(word, data, any_sizes())]
        if asked <= len(data):
            runs.append(left_open(word, data[:asked]))
        tried += len(runs)
        wrong += [(name, said, text) for said in runs if said != text]
    print(f"{tried} runs, {len(wrong)} wrong", *wrong[:10], sep="\n")
    sys.exit(1 if wrong else 0)


main()
