r"""Compares a card model with the proved library after each entry of a schedule, and says at which entry they part.

From the project's root, once:

    sh tools/static_library.sh
    cc -shared -Wl,--whole-archive target/staticlib/libpublic_point_memory.a -Wl,--no-whole-archive \
        -o target/libpoint_memory.so

Then, for a text with a plan and its schedule:

    python3 examples/compare.py examples/three-cards.txt
    python3 examples/compare.py examples/three-cards.txt --mistake split-a7
    python3 examples/compare.py examples/three-cards.txt --command crates/point_memory/out/point_memory

The first compares the model in card_model.py, the second that model with a deliberate mistake. The third compares a
command of your own: it reads a text on standard input and prints the report, as document 01 says, and is run on the
plan with the first n entries for each n. To compare a model in Python, put your class in the place of CardModel below.

Entries are single ones: a line `step card n` is n of them. For n = 0, 1, 2, .. the library is handed the plan's lines
and the first n entries as records, and its answer is held against the model's after the same n entries. A report shows
the commits, the memory and the status of the active jobs. So the entry named is the first at which a departure is seen;
its cause can lie in an earlier one.

The status is 0 when they agree after every entry, 1 when they part, 2 when there is nothing to compare: wrong words on
the command line, a file that cannot be read, a text that the check refuses, or a command that prints no report.
"""
import argparse
import ctypes
import itertools
import pathlib
import re
import shlex
import subprocess
import sys

sys.dont_write_bytecode = True  # leaves no compiled card_model behind

from card_model import MISTAKES, CardModel, Plan, entries_of

SHARED_LIBRARY = pathlib.Path(__file__).resolve().parent.parent / "target" / "libpoint_memory.so"


class Trouble(Exception):
    """There is nothing to compare; the reason is a plain sentence."""


# The library. The structures and functions are those of include/point_memory.h, which says what a caller must ensure.


class Answer(ctypes.Structure):
    _fields_ = [("number", ctypes.c_size_t), ("line", ctypes.c_size_t)]


class Ended(ctypes.Structure):
    _fields_ = [("number", ctypes.c_size_t), ("line", ctypes.c_size_t), ("length", ctypes.c_size_t)]


class Record(ctypes.Structure):
    _fields_ = [("kind", ctypes.c_uint32), ("first", ctypes.c_uint32), ("second", ctypes.c_uint32)]


KINDS = {"call": 0, "step": 1}
REPORT_ROOM = 80000


def load_library(path):
    """The shared library with the types of the three functions that are used here."""
    try:
        library = ctypes.CDLL(str(path))
        library.point_memory_check.restype = Answer
        library.point_memory_check.argtypes = [ctypes.c_char_p, ctypes.c_size_t]
        library.point_memory_run.restype = Ended
        library.point_memory_run.argtypes = [ctypes.c_char_p, ctypes.c_size_t, ctypes.c_char_p, ctypes.c_size_t]
        library.point_memory_run_schedule.restype = Ended
        library.point_memory_run_schedule.argtypes = [
            ctypes.c_char_p, ctypes.c_size_t, ctypes.POINTER(Record), ctypes.c_size_t, ctypes.c_char_p, ctypes.c_size_t
        ]
    except (OSError, AttributeError) as error:
        raise Trouble(f"the library cannot be loaded; the top of this file says how it is made. {error}")
    return library


class Schedule:
    """The lines of an accepted text, its single entries, and where they stand."""

    def __init__(self, text):
        self.lines = text.splitlines(keepends=True)
        numbered = entries_of(text.decode())
        self.entries = [entry for _, entry in numbered]
        entry_lines = [line for line, _ in numbered]
        plan_length = entry_lines[0] - 1 if entry_lines else len(self.lines)
        self.plan_text = b"".join(self.lines[:plan_length])
        self.line_of = [plan_length] + entry_lines  # the line of each entry, counted from 1; first the plan's last line

    def cut_after(self, n):
        """The text up to entry n. Where that entry is a step of a run, the run is cut to its steps up to it."""
        *before, last = self.lines[: self.line_of[n]]
        kind, *numbers = last.split(b"\t")
        if kind == b"step" and len(numbers) == 2:
            last = b"step\t%s\t%d\n" % (numbers[0], self.line_of[: n + 1].count(self.line_of[n]))
        return b"".join(before) + last

    def name(self, n):
        """Entry n by its number, its line and the words of the line."""
        if n == 0:
            return "the opening, before any entry"
        line = self.line_of[n]
        return f"entry {n}, line {line} of the text: {' '.join(self.lines[line - 1].decode().split())}"


# A report is compared as a list of lines, the last of them `end number line`, as it is for the text up to entry n: the
# line is that of entry n where all n are accepted, else that of the refused entry. The library and a model in Python
# count entries, and line_of gives their line; a command is run on that text. So nothing of a report is left out.


def end_line(number, line):
    return f"end\t{number}\t{line}"


def library_reports(library, schedule):
    """The library's report after 0, 1, 2, .. entries, handed in as records. The last one is held against its report of
    the text itself, so that the entries are those that the text says."""
    plan_text, entries = schedule.plan_text, schedule.entries
    records = (Record * (len(entries) + 1))()  # one more, so that there is an address also without any entry
    for record, (kind, *numbers) in zip(records, entries):
        record.kind, record.first, record.second = KINDS[kind], *numbers, *[0] * (2 - len(numbers))
    buffer = ctypes.create_string_buffer(REPORT_ROOM)
    for n in range(len(entries) + 1):
        ended = library.point_memory_run_schedule(plan_text, len(plan_text), records, n, buffer, REPORT_ROOM)
        *lines, _ = buffer[: ended.length].decode().splitlines()
        report = lines + [end_line(ended.number, schedule.line_of[ended.line])]
        yield report
    text = b"".join(schedule.lines)
    ended = library.point_memory_run(text, len(text), buffer, REPORT_ROOM)
    if buffer[: ended.length].decode().splitlines() != report:
        raise Trouble("the entries taken from the text are not its own: the library's report of the text is another.")


def model_reports(model, schedule):
    """The report of a model in Python after 0, 1, 2, .. entries. Two methods of it are used: entry, with the words of
    one entry, gives 0 or a refusal from 11 to 14; report gives the present report's lines without `end`. The first
    refusal stops the run."""
    number = place = 0
    yield model.report() + [end_line(number, schedule.line_of[place])]
    for entry in schedule.entries:
        if number == 0:
            number = model.entry(*entry)
            place += 1
        yield model.report() + [end_line(number, schedule.line_of[place])]


def command(words):
    """The words of a command, at least one."""
    if not shlex.split(words):
        raise ValueError
    return shlex.split(words)


def command_reports(words, schedule):
    """The report of a command after 0, 1, 2, .. entries: it is run anew on the text up to entry n."""
    for n in range(len(schedule.entries) + 1):
        try:
            run = subprocess.run(words, input=schedule.cut_after(n), stdout=subprocess.PIPE, timeout=60)
        except (OSError, subprocess.TimeoutExpired) as error:
            raise Trouble(f"the command cannot be run on the plan and its first {n} entries. {error}")
        output = run.stdout.decode("latin-1")
        if re.fullmatch(r"(?:[^\n]*\n)*end\t(?:0|[1-9][0-9]*)\t(?:0|[1-9][0-9]*)\n", output) is None:
            raise Trouble(
                f"the command prints no report for the plan and its first {n} entries: its last line is not `end`, a "
                f"number and a line, parted by tabs and ended by a line feed. Its status is {run.returncode}."
            )
        yield output.split("\n")[:-1]


def compare(name, expected_reports, seen_reports, schedule):
    """Compares two rows of reports and prints where they part, or that they agree; answers whether they agree."""
    accepted = 0
    for n, (expected, seen) in enumerate(zip(expected_reports, seen_reports)):
        for in_library, in_model in itertools.zip_longest(expected, seen):
            if in_library != in_model:
                print(f"The library and the {name} part at {schedule.name(n)}")
                print("The first line in which their reports differ there, with \\t for a tab:")
                print(f"  {'library:':9}{ascii(in_library)}")
                print(f"  {name + ':':9}{ascii(in_model)}")
                return False
        _, number, _ = expected[-1].split("\t")
        if number == "0":
            accepted = n
    print(f"The library and the {name} agree at the opening and after each of {len(schedule.entries)} entries.")
    if number != "0":
        print(f"Both refuse entry {accepted + 1} with {number}, so that the entries behind it do not run.")
    return True


def main():
    parser = argparse.ArgumentParser(description="Compares a card model with the proved library after each entry.")
    parser.add_argument("text", help="a file with a plan and its schedule")
    which = parser.add_mutually_exclusive_group()
    which.add_argument("--mistake", choices=MISTAKES, help="compare the model with this mistake")
    which.add_argument("--command", type=command, help="compare this command instead of the model in Python")
    parser.add_argument("--library", default=SHARED_LIBRARY, help="the shared library, if it is elsewhere")
    words = parser.parse_args()
    try:
        library = load_library(words.library)
        try:
            text = pathlib.Path(words.text).read_bytes()
        except OSError as error:
            raise Trouble(f"the text cannot be read. {error}")
        answer = library.point_memory_check(text, len(text))
        if answer.number != 0:
            raise Trouble(f"the check refuses the text with {answer.number}, line {answer.line}.")

        schedule = Schedule(text)
        if words.command is not None:
            name, seen = "command", command_reports(words.command, schedule)
        else:
            model = CardModel(Plan(schedule.plan_text.decode()), words.mistake)
            name, seen = "model", model_reports(model, schedule)
        return 0 if compare(name, library_reports(library, schedule), seen, schedule) else 1
    except Trouble as trouble:
        print(f"compare.py: {trouble}", file=sys.stderr)
        return 2


if __name__ == "__main__":
    sys.exit(main())
