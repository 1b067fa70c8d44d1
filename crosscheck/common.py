"""What the scripts of crosscheck/ and bench/ share: their names, usages and needs, a run of the program, and captures."""

import argparse
import os
import re
import shutil
import subprocess
import sys
from pathlib import Path

sys.dont_write_bytecode = True
FOLDER = Path(sys.argv[0]).resolve().parent
NAME = f"{FOLDER.name}/{Path(sys.argv[0]).name}"


def fail(what):
    sys.exit(f"{NAME}: {what}")


def usage(about, program=True):
    """A parser of the script's words, with the first paragraph of its text before them and the others after them."""
    first, _, others = about.partition("\n\n")
    parser = argparse.ArgumentParser(prog=NAME, description=first, epilog=others,
                                     formatter_class=argparse.RawDescriptionHelpFormatter)
    if program:
        add_program(parser)
    return parser


def add_program(parser):
    parser.add_argument("program", type=built, help="the built program, crates/vc2link/out/vc2link")


def built(path):
    """The path of the built program. Without it the script ends."""
    if not os.path.isfile(path) or not os.access(path, os.X_OK):
        fail(f"{path} is no program: `rt run` in crates/vc2link builds it")
    return os.path.abspath(path)


def need(*tools):
    """Ends the script where a tool isn't installed."""
    for tool in tools:
        if not shutil.which(tool):
            fail(f"needs {tool}")


def positive(word):
    number = int(word)
    if number < 1:
        raise ValueError
    return number


def size(word):
    """The width and the height in a word such as 1920x1080."""
    width, height = map(positive, word.split("x"))
    return width, height


def entry(datagram):
    """A capture's entry: the datagram's length in two bytes, and the datagram."""
    return len(datagram).to_bytes(2, "big") + datagram


def capture_of(datagrams):
    return b"".join(map(entry, datagrams))


def datagrams_of(capture):
    """The datagrams of a capture's whole entries."""
    datagrams, at = [], 0
    while at + 2 <= len(capture):
        end = at + 2 + int.from_bytes(capture[at : at + 2], "big")
        if end > len(capture):
            break
        datagrams.append(capture[at + 2 : end])
        at = end
    return datagrams


def run(program, words, given=b"", says_missing=False, **more):
    """The status, the output and the report of a run of the program; with the line of missing frames behind it, where that is
    wanted. The words are a list, or a text with spaces between."""
    words = words.split() if isinstance(words, str) else words
    ran = subprocess.run([program, *words], input=given, capture_output=True, **more)
    said = ran.stderr.decode(errors="replace")
    if not says_missing:
        said = re.sub(r"^missing [-0-9a-z ]+\n\Z", "", said, flags=re.MULTILINE)
    return ran.returncode, ran.stdout, said


# What `main` says of an input after the report, by its first bytes (docs/FORMATS.md).
OF_INPUT = re.compile(r"(the input (begins as|is) |a frame of these settings has |datagrams to other ports came: ).*\n\Z")


def run_alone(program, words, given=b"", **more):
    """A run as `run` has it, whose report ends before what `main` says of the input."""
    status, output, report = run(program, words, given, **more)
    return status, output, OF_INPUT.sub("", report)


def difference(found, wanted):
    """What differs first of the status, the output and the report of two runs, as words."""
    for name, a, b in zip(("status", "output", "report"), found, wanted):
        if a != b:
            return f"{name} {len(a)} bytes, not the {len(b)} wanted" if name == "output" else f"{name} {a!r}, not {b!r}"
    return "no difference"
