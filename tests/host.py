"""Tests of the built program and library: the table of cases, job sheets, and random texts against the model.

usage: python3 tests/host.py CONF LIBRARY   (the program, and the runs as a shared library)
The last line is `N passed, M failed`; the status is 1 if anything failed.
"""

import ctypes
import os
import subprocess
import sys
import tempfile

import cases
import model
from generate import Generator

RANDOM_TREES = 4000
LONGEST = 45824


def modelled(number, tree, file, answers):
    """What the model says: bytes, or (number, text, line)."""
    try:
        return model.run(number, tree, file, answers)
    except model.Refused as refusal:
        return (refusal.number, refusal.text, refusal.line)


class Program:
    """The program in a folder of its own."""

    def __init__(self, path):
        self.path = os.path.abspath(path)

    def run(self, sheet, texts):
        with tempfile.TemporaryDirectory() as folder:
            for name, text in texts.items():
                with open(os.path.join(folder, name), "wb") as out:
                    out.write(text)
            done = subprocess.run([self.path], input=sheet, capture_output=True, cwd=folder, timeout=60)
        if done.stderr:
            return ("stderr", done.stderr)
        if done.returncode == 0:
            return done.stdout
        return ("status %d" % done.returncode, done.stdout)

    @staticmethod
    def refused(number, text, line):
        return ("status 1", b"refused=%d\ntext=%d\nline=%d\n" % (number, text, line))

    def case(self, run, tree, file, answers):
        texts = {"t": tree, "f": file, "a": answers}
        sheet = "run=%s\ntree=t\nfile=f\nanswers=%s\n" % (run, "" if answers == b"" else "a")
        return self.run(sheet.encode(), {name: text for name, text in texts.items() if text is not None})


class Library:
    """The exported run, called in this process."""

    def __init__(self, path):
        self.call = ctypes.CDLL(os.path.abspath(path)).voilechalk_run
        self.call.restype = ctypes.c_int64
        self.call.argtypes = [ctypes.c_uint32] + [ctypes.c_char_p, ctypes.c_size_t] * 4

    def raw(self, number, tree, file, answers, room):
        """The returned number and the buffer after the call, which held `?` before."""
        out = ctypes.create_string_buffer(b"?" * room, max(room, 1))
        slices = [item for text in (tree, file, answers) for item in (text, len(text))]
        result = self.call(number, *slices, ctypes.cast(out, ctypes.c_char_p), room)
        return result, out.raw[:room]

    def run(self, number, tree, file, answers):
        """Bytes or (number, text, line), or what is amiss with the buffer."""
        result, out = self.raw(number, tree, file, answers, LONGEST)
        if result >= 0:
            return out[:result] if out[result:] == b"?" * (LONGEST - result) else "bytes past the file"
        if out != b"?" * LONGEST:
            return "a refusal changed the buffer"
        return (-result // 100000 % 100, -result // 10000000, -result % 100000)


class Tally:
    def __init__(self):
        self.passed = self.failed = 0

    def expect(self, label, got, want, show=None):
        if got == want:
            self.passed += 1
            return
        self.failed += 1
        print("FAILED %s\n  wanted %r\n  got    %r" % (label, want, got))
        if show:
            print(show)


def table(tally, program, library):
    for label, run, tree, file, answers, want in cases.CASES:
        number = cases.NUMBERS[run]
        printed = want if isinstance(want, bytes) else Program.refused(*want)
        tally.expect(label + " (program)", program.case(run, tree, file, answers), printed)
        tally.expect(label + " (model)", modelled(number, tree, file, answers), want)
        if None not in (tree, file, answers):
            tally.expect(label + " (library)", library.run(number, tree, file, answers), want)


def sheets(tally, program):
    worked = {"Kconfig": cases.WORKED, ".config": cases.FILE}
    for label, sheet, want in cases.SHEETS:
        printed = want if isinstance(want, bytes) else Program.refused(*want)
        tally.expect(label + " (sheet)", program.run(sheet, worked), printed)


def buffers(tally, library):
    """A buffer of the file's length serves, one byte less does not; and an unknown run comes before all."""
    for run, want in ((6, cases.SAVED), (1, cases.CASES[1][5])):
        texts = (cases.WORKED, cases.FILE, b"")
        tally.expect("a buffer that fits", library.raw(run, *texts, len(want)), (len(want), want))
        short = len(want) - 1
        tally.expect("a buffer one byte short", library.raw(run, *texts, short), (-42400000, b"?" * short))
    for number in (0, 7, 4294967295):
        tally.expect("run %d" % number, library.raw(number, b"=", b"x", b"x", 9), (-1100000, b"?" * 9))


def random_texts(tally, program, library):
    """Every run on random texts, against the model; and each written file gives the same values again."""
    written = 0
    for seed in range(RANDOM_TREES):
        if tally.failed > 20:
            break
        made = Generator(seed)
        tree, file, answers = made.tree(), made.file(), made.file()
        show = "seed %d\n%s\n-- file\n%s\n-- answers\n%s" % (seed, *(t.decode("latin-1") for t in (tree, file, answers)))
        for name, number in cases.NUMBERS.items():
            want = modelled(number, tree, file, answers)
            tally.expect("random, " + name, library.run(number, tree, file, answers), want, show)
            if not isinstance(want, bytes):
                break
            written += 1
            full = modelled(1, tree, file, answers) if number == 6 else want
            tally.expect("again, " + name, library.run(1, tree, want, b""), full, show)
        if seed % 50 == 0:
            want = modelled(6, tree, file, answers)
            printed = want if isinstance(want, bytes) else Program.refused(*want)
            tally.expect("random, program", program.case("savedefconfig", tree, file, answers), printed, show)
    print("random texts: %d, files written: %d" % (RANDOM_TREES, written))


def main():
    program, library = Program(sys.argv[1]), Library(sys.argv[2])
    tally = Tally()
    table(tally, program, library)
    sheets(tally, program)
    buffers(tally, library)
    random_texts(tally, program, library)
    print("%d passed, %d failed" % (tally.passed, tally.failed))
    return 1 if tally.failed else 0


if __name__ == "__main__":
    sys.exit(main())
