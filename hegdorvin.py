"""The bureau's command: second-source sequencers held against a golden unit. The file `hegdorvin` starts it.

Every answer comes from the proved program `bureau`. This file only sees that it is built, passes files to it and its line on,
sets the exit status, and puts an answer or a file into words. docs/hegdorvin.1 is its manual, docs/LINES.md says what a line
holds.
"""

import argparse
import errno
import fcntl
import functools
import hashlib
import os
import re
import resource
import shutil
import signal
import stat
import subprocess
import sys
import tempfile
from contextlib import contextmanager, suppress
from dataclasses import dataclass, replace
from pathlib import Path

VERSION = "hegdorvin 1.0.0"
ROOT = Path(__file__).resolve().parent

# The exit statuses.
GOOD, BAD, REFUSED, TROUBLE = 0, 1, 2, 3

STATUS = {
    "ACCEPTED": GOOD,
    "BUILT": GOOD,
    "PASSES": GOOD,
    "EQUAL": GOOD,
    "AGREES": GOOD,
    "COST": GOOD,
    "FOUND": GOOD,
    "IMPORTED": GOOD,
    "FAILS": BAD,
    "DIFFERS": BAD,
    "DEVIATES": BAD,
    "REFUSED": REFUSED,
}

# The answers with which an output is written.
WRITTEN = ("BUILT", "FOUND", "IMPORTED")

# The sorts of file by their letter in a line: a name, and the most bytes one may have.
SORTS = {"D": ("dossier", 65535), "U": ("unit", 65535), "S": ("sheet", 131070), "T": ("text", 65535)}

REFUSALS = {
    1: "TOO LONG",
    2: "CUT SHORT",
    3: "BAD NUMBERS",
    4: "BAD TABLE",
    5: "BAD WORD",
    6: "TRAILING",
    7: "NO EMPTY WORD",
    8: "UNREACHED",
    9: "NO SEPARATOR",
    10: "NOT SEPARATED",
    11: "MISSING",
    12: "REPEATED",
    13: "FOREIGN",
    14: "ABSENT",
    15: "OTHER INPUTS",
    16: "TOO MANY STATES",
    17: "NO ROOM",
    18: "NOT REDUCED",
    19: "BAD LINE",
    20: "CONTRADICTION",
    21: "INCOMPLETE",
}


class Trouble(Exception):
    """A use or a file that nothing can be answered of."""


def reason(fault):
    return getattr(fault, "strerror", None) or str(fault)


# ---- what is said


def printable(text):
    """The text on one line. What could break the line, steer a terminal or turn the reading is written as an escape."""
    return "".join(sign if sign.isprintable() else sign.encode("unicode_escape").decode() for sign in text)


def say(lines, stream=None):
    stream = stream or sys.stdout
    put("".join(printable(line) + "\n" for line in lines).encode(stream.encoding, "backslashreplace"), stream)


def put(data, stream):
    """Where nobody reads any more, that is no fault of ours: the answer and its status stay what they are."""
    try:
        stream.buffer.write(data)
        stream.flush()
    except BrokenPipeError:
        close_off(stream)
    except OSError as fault:
        close_off(stream)
        raise Trouble(f"standard output cannot be written: {reason(fault)}") from fault


def close_off(stream):
    """What the stream still holds, and what comes, goes nowhere: otherwise Python would try it again at the end."""
    os.dup2(os.open(os.devnull, os.O_WRONLY), stream.fileno())


def is_open(stream):
    """A stream that can only be read is another file, which got the number of a closed stream."""
    return stream is not None and fcntl.fcntl(stream, fcntl.F_GETFL) & os.O_ACCMODE != os.O_RDONLY


def complain(text):
    """A line on standard error, on standard output where that is closed. It is no trouble more if it cannot be written."""
    for stream in filter(is_open, (sys.stderr, sys.stdout)):
        with suppress(Trouble):
            say([f"hegdorvin: {text}"], stream)
        return


# ---- the files that are given


@dataclass
class Given:
    """A file as it was given: its letter, its name, and its bytes up to one more than its sort may have."""

    letter: str
    name: str
    data: bytes

    @property
    def sort(self):
        return SORTS[self.letter][0]


def read_given(letter, name):
    most = SORTS[letter][1]
    try:
        if name == "-":
            return Given(letter, "standard input", sys.stdin.buffer.read(most + 1))
        with open(name, "rb") as file:
            return Given(letter, name, file.read(most + 1))
    except (OSError, ValueError) as fault:
        raise Trouble(f"{name} cannot be read: {reason(fault)}") from fault


def read_all(letters, names):
    if list(names).count("-") > 1:
        raise Trouble("standard input can be given once only")
    return [read_given(letter, name) for letter, name in zip(letters, names)]


# ---- the proved program

TARGET = ROOT / "target"
# The program where rt leaves it, and the copy that is run: rt puts aside what it made while it proves all again.
MADE = ROOT / "crates" / "bureau" / "out" / "bureau"
PROGRAM = TARGET / "bin" / "bureau"
# The digests of what the program was built from and of the program, and the folder of the toolchain that built it.
RECORD = TARGET / "bin" / "bureau.built"
LOCK = TARGET / "bin" / "bureau.lock"
# What rt said at the last build.
LOG = TARGET / "bureau.log"
# The program's arrays lie on the stack, less than 2 MiB in all (docs/BENCH.md).
ENOUGH_STACK = 4096 * 1024


def crates():
    """The crates that bureau stands on, and bureau, by crates.txt."""
    below = {}
    for line in (ROOT / "crates.txt").read_text().splitlines():
        name, colon, others = line.partition("#")[0].partition(":")
        if colon:
            below[name.strip()] = others.split()
    found, waiting = set(), ["bureau"]
    while waiting:
        name = waiting.pop()
        if name in below and name not in found:
            found.add(name)
            waiting += below[name]
    return found


def source_files():
    """What the program is built from. The edits that must fail are no part of it, nor is what rt makes of it."""
    yield ROOT / "toolchain.txt"
    yield ROOT / "crates.txt"
    for name in sorted(crates()):
        for folder, folders, files in os.walk(ROOT / "crates" / name):
            folders[:] = sorted(set(folders) - {"must-fail", "out"})
            for file in sorted(files):
                if stat.S_ISREG(os.lstat(os.path.join(folder, file)).st_mode):
                    yield Path(folder, file)


def sources_digest():
    digest = hashlib.sha256()
    for file in source_files():
        data = file.read_bytes()
        digest.update(os.fsencode(file.relative_to(ROOT)) + b" %d\n" % len(data) + data)
    return digest.hexdigest()


def file_digest(file):
    return hashlib.sha256(file.read_bytes()).hexdigest()


def named_toolchain():
    return (ROOT / "toolchain.txt").read_text().strip()


def is_built():
    """Whether the program is there, as it was built from the sources as they are, and the toolchain of its proofs is the one that is named."""
    try:
        sources, program, kit = os.fsdecode(RECORD.read_bytes()).splitlines()
        is_named = Path(kit, "KIT-ID").read_text().strip() == named_toolchain()
        return is_named and (sources, program) == (sources_digest(), file_digest(PROGRAM))
    except (OSError, ValueError):
        return False


@functools.lru_cache(maxsize=None)
def bureau():
    """Sees that the program is built from the sources as they are, and answers its name."""
    if not is_built():
        with build_lock() as lock:
            if not is_built():  # another use may have built it meanwhile
                build(lock)
    return PROGRAM


@contextmanager
def build_lock():
    """One use builds, others wait for it. The file stays where it is: who waits has it open."""
    try:
        LOCK.parent.mkdir(parents=True, exist_ok=True)
        lock = open(LOCK, "ab")
    except OSError as fault:
        raise Trouble(f"the proved program has to be built, and {LOCK.parent} cannot be written: {reason(fault)}") from fault
    with lock:
        try:
            fcntl.flock(lock, fcntl.LOCK_EX | fcntl.LOCK_NB)
        except BlockingIOError:
            complain("waiting for another use, which builds the proved program")
            fcntl.flock(lock, fcntl.LOCK_EX)
        yield lock


def build(lock):
    kit = find_toolchain()
    sources = sources_digest()
    complain("building the proved program, which takes long where nothing is proved yet")
    prove(lock)
    keep(sources, kit)


def keep(sources, kit):
    """Copies the program that rt left, and records it as built of these sources by that toolchain."""
    replace_file(PROGRAM, MADE.read_bytes())
    PROGRAM.chmod(0o777 & ~current_mask())
    replace_file(RECORD, os.fsencode(f"{sources}\n{file_digest(PROGRAM)}\n{kit}\n"))


def take():
    """Takes the program that `rt ci` has just proved and built of the sources as they are: `./test` asks for that."""
    with build_lock():
        if not is_built():
            keep(sources_digest(), find_toolchain())


def find_toolchain():
    """The folder of the installed toolchain, which has to be the one that toolchain.txt names."""
    named = named_toolchain()
    if shutil.which("rt") is None:
        raise Trouble(f"the proved program has to be built, and the toolchain is not installed: {named}, with its command rt")
    installed = ask_rt("version")
    if installed != named:
        raise Trouble(f"the proved program has to be built with the toolchain {named}, and {installed} is installed")
    return os.path.dirname(ask_rt("doc"))


def ask_rt(word):
    return os.fsdecode(subprocess.run(["rt", word], stdin=subprocess.DEVNULL, stdout=subprocess.PIPE).stdout).strip()


def prove(lock):
    """Runs rt, which proves and builds the program and then runs it once. All that rt starts is in a group of its own, so that it can
    be stopped as a whole, and holds the lock."""
    with tempfile.TemporaryDirectory(prefix="hegdorvin-") as folder:
        building = subprocess.Popen(
            ["rt", "run", "--", "check", ROOT / "examples" / "golden"],
            cwd=ROOT / "crates" / "bureau",
            env={**os.environ, "TMPDIR": folder},
            stdin=subprocess.DEVNULL,
            stdout=subprocess.PIPE,
            stderr=subprocess.STDOUT,
            start_new_session=True,
            pass_fds=[lock.fileno()],
        )
        try:
            last = show_progress(building.stdout)
            status = building.wait()
        except KeyboardInterrupt as fault:
            raise Trouble("the build was stopped; what is proved so far is kept for the next use") from fault
        finally:
            stop(building)
    if status != 0:
        raise Trouble(f"the proved program could not be built ({LOG} has more): {last}")


def stop(building):
    """Ends rt, if it still runs, and all that it started: a shell's jobs in the background do not hear Ctrl-C."""
    if building.returncode is None:
        os.killpg(building.pid, signal.SIGKILL)
        building.wait()
    building.stdout.close()


def show_progress(output):
    """Says which crate is being proved, keeps all that rt says, and answers the last line."""
    names, begun, last = crates(), set(), ""
    with open(LOG, "wb") as log:
        for line in output:
            log.write(line)
            last = line.decode(errors="replace").strip() or last
            proving = re.fullmatch(r"rt: chose --jobs \d+ for (\w+)", last)
            if proving and proving[1] in names - begun:
                begun.add(proving[1])
                complain(f"proving {proving[1]}, crate {len(begun)} of at most {len(names)}")
    return last


def ask(operation, given, bound=None, has_output=False):
    """The line of an operation on files, with a bound if it takes one, and the bytes of its output, if it is to have one."""
    program = bureau()
    with tempfile.TemporaryDirectory(prefix="hegdorvin-") as folder:
        names = []
        for file in given:
            Path(folder, file.sort).write_bytes(file.data)
            names.append(file.sort)
        if bound is not None:
            names.append(str(bound))
        if has_output:
            names.append("output")
        # the names are bare: that of the folder may be no text, and the program takes names of text alone
        ran = subprocess.run([program, operation, *names], cwd=folder, stdin=subprocess.DEVNULL, capture_output=True)
        line = ran.stdout.decode("ascii", errors="replace")
        words = line.split()
        if ran.returncode != 0 or not words or words[0] not in STATUS or not line.endswith("\n"):
            raise Trouble(no_answer(ran.returncode))
        written = Path(folder, names[-1]).read_bytes() if words[0] in WRITTEN else b""
        return words, written


def no_answer(status):
    if status >= 0:
        return f"the program bureau ended with status {status} and no answer"
    stack = resource.getrlimit(resource.RLIMIT_STACK)[0]
    if 0 <= stack < ENOUGH_STACK:
        needed = f"it needs a stack of {ENOUGH_STACK // 1024} KiB, and `ulimit -s` allows {stack // 1024}"
        return f"the program bureau was ended by signal {-status}: {needed}"
    return f"the program bureau was ended by signal {-status} ({signal.strsignal(-status)}) and gave no answer"


# ---- reading a file to show it


class Stopped(Exception):
    """A file that does not read well."""


class Bytes:
    """A file's bytes, taken from the front. Where something is wrong the reading stops."""

    def __init__(self, data, most):
        self.data = data
        self.place = 0
        self.hold(len(data) <= most, "too long")

    def hold(self, good, fault):
        if not good:
            raise Stopped(f"{fault}, before byte {self.place}")

    def take(self, count):
        part = self.data[self.place : self.place + count]
        self.hold(len(part) == count, "cut short")
        self.place += count
        return part

    def count(self):
        return int.from_bytes(self.take(2), "little")

    def word(self, most, inputs):
        word = self.take(self.take(1)[0])
        self.hold(len(word) <= most and all(number < inputs for number in word), "bad word")
        return word

    def words(self, most, inputs):
        return [self.word(most, inputs) for _ in range(self.count())]

    def numbers(self, right):
        self.hold(self.count() == right, "bad numbers")
        inputs, states, *others = self.take(right)
        self.hold(1 <= inputs <= 16 and 1 <= states <= 64, "bad numbers")
        return inputs, states, *others

    def table(self, inputs, states):
        self.hold(self.count() == states * inputs, "bad table")
        entries = self.take(2 * states * inputs)
        self.hold(all(state < states for state in entries[::2]), "bad table")
        return Machine(inputs, states, entries)

    def end(self):
        self.hold(self.place == len(self.data), "trailing bytes")


@dataclass
class Machine:
    inputs: int
    states: int
    entries: bytes

    def step(self, state, number):
        at = 2 * (state * self.inputs + number)
        return self.entries[at], self.entries[at + 1]

    def answer(self, word, state=0):
        outputs = []
        for number in word:
            state, output = self.step(state, number)
            outputs.append(output)
        return outputs


@dataclass
class Dossier:
    golden: Machine
    bound_byte: int
    cover: list
    separating: list
    tests: list

    @property
    def bound(self):
        return self.bound_byte or self.golden.states


def read_dossier(data):
    file = Bytes(data, 65535)
    inputs, states, bound_byte = file.numbers(3)
    file.hold(states <= (bound_byte or states) <= min(64, states + 4), "bad numbers")
    golden = file.table(inputs, states)
    cover, separating, tests = (file.words(most, inputs) for most in (97, 97, 200))
    file.end()
    return Dossier(golden, bound_byte, cover, separating, tests)


def read_unit(data):
    file = Bytes(data, 65535)
    unit = file.table(*file.numbers(2))
    file.end()
    return unit


def read_sheet(data):
    """The records of a sheet of any dossier: words and what was answered."""
    file = Bytes(data, 131070)
    records = []
    for _ in range(file.count()):
        word = file.word(200, 16)
        records.append((word, file.take(len(word))))
    file.end()
    return records


READERS = {"dossier": read_dossier, "unit": read_unit, "sheet": read_sheet}


# ---- KISS2 texts, by the rules of docs/KISS2.md: what is mended in them, and what is wrong about a line

# The directives that say a number, and the most that it may be.
NUMBERS = {b".i": 4, b".o": 8, b".p": 999999999, b".s": 64}
MOST_NAME, MOST_STATES = 16, 64


def text_lines(data):
    lines = data.split(b"\n")
    return lines if lines[-1] else lines[:-1]


def fields_of(line):
    """The fields of a line; none where it is skipped."""
    found = [field for field in re.split(rb"[ \t\r]", line) if field]
    return [] if found and found[0].startswith(b"#") else found


def quoted(field):
    shown = field[:40].decode(errors="backslashreplace")
    return f"`{shown}{'...' if len(field) > 40 else ''}`"


def mended(text):
    """The text with an `.e` where it has none, and without an `.r` that names no term's state; and what was mended. Every line
    stays where it is, so that a refusal names the maker's own."""
    most = SORTS["T"][1]
    if len(text.data) > most:
        return text, []  # it was not read to its end
    told, lines = [], text_lines(text.data)
    found = [fields_of(line) for line in lines]
    states = {name for term in found if len(term) == 4 for name in term[1:3]}
    for place, line in enumerate(found):
        if len(line) == 2 and line[0] == b".r" and line[1] not in states:
            told.append(f"line {place + 1}: `.r` is left out, as {quoted(line[1])} is no term's state")
            lines[place] = b"#"
    if [b".e"] not in found:
        lines.append(b".e")
        told.append(f"line {len(lines)}: `.e` is added, as the text has none")
    better = b"\n".join(lines)
    if not told or len(better) > most:
        return text, []  # there is nothing to mend, or no room for an `.e`
    return replace(text, data=better), told


class Kiss2:
    """A text as far as it was read."""

    def __init__(self):
        self.said = {}  # of each directive its line, and the number or the name
        self.names = []
        self.terms = []  # the lines of the terms, and their four fields
        self.is_ended = False

    def fault(self, line, found):
        """Takes in the fields of a line. What is wrong about them, if anything is."""
        first = found[0]
        if self.is_ended:
            return "nothing but comments and empty lines may follow `.e`"
        if first == b".e":
            self.is_ended = len(found) == 1
            return None if self.is_ended else "`.e` has to stand alone on its line"
        if first in NUMBERS or first == b".r":
            return self.directive_fault(line, first, found[1:])
        if first.startswith(b"."):
            return f"{quoted(first)} is none of `.i`, `.o`, `.p`, `.s`, `.r` and `.e`"
        return self.term_fault(line, found)

    def directive_fault(self, line, directive, values):
        shown = quoted(directive)
        if len(values) != 1:
            return f"{shown} has to be followed by one field, and not by {len(values)}"
        if self.terms:
            return f"{shown} has to stand before the first term, which is on line {self.terms[0][0]}"
        if directive in self.said:
            return f"{shown} was said on line {self.said[directive][0]} already"
        (value,) = values
        self.said[directive] = line, value
        if directive == b".r":
            return self.name_fault(value)
        most = NUMBERS[directive]
        if not re.fullmatch(rb"[0-9]{1,9}", value) or not 1 <= int(value) <= most:
            return f"{shown} needs a number from 1 to {most}, in at most nine digits, and {quoted(value)} is none"
        return None

    def number(self, directive, otherwise):
        return int(self.said[directive][1]) if directive in self.said else otherwise

    def name_fault(self, name):
        if len(name) > MOST_NAME:
            return f"the name {quoted(name)} has {len(name)} bytes, and a name has at most {MOST_NAME}"
        if not all(0x21 <= byte <= 0x7E for byte in name):
            return f"the name {quoted(name)} has a byte that is no printable character"
        if name not in self.names:
            self.names.append(name)
        most = self.number(b".s", MOST_STATES)
        if len(self.names) <= most:
            return None
        limit = "`.s` says" if b".s" in self.said else "a text may have"
        return f"{quoted(name)} is state number {len(self.names)}, and {limit} {most}"

    def term_fault(self, line, found):
        if len(found) != 4:
            return f"a term has four fields, and this line has {len(found)}"
        for directive in (b".i", b".o"):
            if directive not in self.said:
                return f"{quoted(directive)} has to stand before the first term"
        fault = self.bits_fault(b".i", "input", found[0], b"01-") or self.bits_fault(b".o", "output", found[3], b"01")
        fault = fault or self.name_fault(found[1]) or self.name_fault(found[2])
        if fault:
            return fault
        self.terms.append((line, found))
        count, most = len(self.terms), self.number(b".p", len(self.terms))
        return None if count <= most else f"the term is number {count}, and `.p` says {most}"

    def bits_fault(self, directive, what, bits, signs):
        most = self.number(directive, 0)
        if len(bits) != most:
            return f"{quoted(directive)} says {counted(most, 'bit')}, the {what} has {len(bits)}"
        if bits.strip(signs):
            return f"the {what} {quoted(bits)} has other signs than {', '.join(signs.decode())}"
        return None

    def lacking(self):
        """What the text lacks at its end."""
        told = [f"The text has no {quoted(directive)}." for directive in (b".i", b".o") if directive not in self.said]
        if not self.is_ended:
            told.append("The text has no `.e`.")
        if not self.terms:
            told.append("The text has no term.")
        for directive, what, there in ((b".p", "term", self.terms), (b".s", "state", self.names)):
            said = self.number(directive, len(there))
            if said != len(there):
                told.append(f"{quoted(directive)} says {counted(said, what)}, and {len(there)} are there.")
        return told

    def numbered(self):
        """The names of the states, in the order of their numbers."""
        reset = [self.said[b".r"][1]] if b".r" in self.said else []
        columns = [[found[place] for _, found in self.terms] for place in (1, 2)]
        return list(dict.fromkeys(reset + columns[0] + columns[1]))

    def contradicted(self):
        """The earlier term that the last one contradicts, and the lowest input of both."""
        _, (cube, state, *answer) = self.terms[-1]
        for line, (other, current, *said) in self.terms[:-1]:
            both = [one if two == ord("-") else two for one, two in zip(cube, other)]
            meets = all(one in (bit, ord("-")) for one, bit in zip(cube, both))
            if current == state and meets and said != answer:
                return line, bytes(both).replace(b"-", b"0").decode()
        raise Stopped("the last term contradicts none")


def read_text(data, last=None):
    """The text up to a line, and what is wrong about that one."""
    text, fault = Kiss2(), None
    for line, found in enumerate(map(fields_of, text_lines(data)[:last]), 1):
        if found:
            fault = text.fault(line, found)
    return text, fault


# ---- in words


def word_text(word):
    return "".join(f"{number:x}" for number in word) or "-"


def counted(count, thing):
    return f"{count} {thing}" + ("" if count == 1 else "s")


def bytes_around(data, place):
    """The bytes around a place in hex, the one at the place in brackets."""
    first = max(0, place - 8)
    shown = [f"{byte:02x}" for byte in data[first : place + 9]]
    if place >= len(data):
        shown.append("end")
    shown[place - first] = f"[{shown[place - first]}]"
    before = "... " if first > 0 else ""
    after = " ..." if place + 9 < len(data) else ""
    return f"  from {first}: {before}{' '.join(shown)}{after}"


def answers_beside(word, rows, step):
    """Answers to a word side by side, a step marked."""
    rows = [("step", range(len(word))), ("input", word), *rows]
    lines = [f"  {name:8}" + "".join(f"{value:4}" for value in values) for name, values in rows]
    lines.append(" " * 10 + "    " * step + "   ^")
    return lines


def explain_malformed(number, letter, place, given):
    file = next(file for file in given if file.letter == letter)
    most = SORTS[letter][1]
    says = {
        1: f"has more than {most} bytes",
        2: "ends where a byte is still needed",
        3: "has a wrong count, or a number out of its range",
        4: "has a wrong count of table entries, or a next state that is no state",
        5: "has a word that is too long, or an input that is not below k",
        6: "has bytes after its last section",
    }[number]
    lines = [f"The {file.sort} {file.name} {says}, at byte {place}."]
    return lines if number == 1 else lines + [bytes_around(file.data, place)]


def explain_unsound(number, values, dossier):
    if number == 7:
        return ["The cover lacks the empty word."]
    if number == 8:
        return [f"No cover word reaches golden state {values[0]}."]
    if number == 9:
        return ["The separating section is empty: without a word in it nothing is tested."]
    if number == 10:
        return [f"Golden states {values[0]} and {values[1]} answer every separating word alike."]
    cover, middle, separator = int(values[0]), values[1], int(values[2])
    parts = [word_text(dossier.cover[cover]), middle, word_text(dossier.separating[separator])]
    needed = "".join(part for part in parts if part != "-") or "-"
    return [
        f"The needed word {needed} begins no test. It is cover word {cover} ({parts[0]}), the middle {parts[1]}, "
        f"and separating word {separator} ({parts[2]})."
    ]


def explain_unpaired(number, place, dossier, sheet):
    if number == 14:
        return [f"Test {place} ({word_text(dossier.tests[place])}) has no record."]
    word = sheet[place][0]
    if number == 13:
        return [f"Record {place} has the word {word_text(word)}, which is no test."]
    earlier = next(i for i, (other, _) in enumerate(sheet) if other == word)
    return [f"Record {place} has the word {word_text(word)}, which record {earlier} has already."]


def explain_bound(unit):
    most = min(64, unit.states + 4)
    return [f"The bound has to be 0, or from {unit.states} to {most}, as the unit has {counted(unit.states, 'state')}."]


def explain_unfit(number, values):
    """8 and 18 of find: what keeps the unit from being a golden."""
    if number == 8:
        return [
            f"No word leads to state {values[0]} of the unit. Without the states that no word leads to",
            "the unit answers every word as it does now.",
        ]
    first, second = values
    return [
        f"States {first} and {second} of the unit answer every word alike. What leads to state {second} can lead",
        f"to state {first}, and state {second} be dropped: the unit answers every word as it does now.",
    ]


def line_shown(data, line):
    """A line of a text with its number, as much of it as a terminal shows on one."""
    shown = text_lines(data)[line - 1].rstrip(b"\r")
    return f"  {line}: {shown[:100].decode(errors='backslashreplace')}{' ...' if len(shown) > 100 else ''}"


def explain_text(number, values, data):
    """19, 20 and 21: the line or the state, and what is wrong about it."""
    first = int(values[0])
    if number == 21:
        return [explain_incomplete(first, int(values[1]), read_text(data)[0])]
    text, fault = read_text(data, first)
    if number == 20:
        earlier, bits = text.contradicted()
        state = quoted(text.terms[-1][1][1])
        told = f"Lines {earlier} and {first} answer otherwise in state {state} to the input {bits}:"
        return [told, line_shown(data, earlier), line_shown(data, first)]
    if first > len(text_lines(data)):
        return text.lacking()
    return [f"On line {first}, {fault}:", line_shown(data, first)]


def explain_incomplete(state, number, text):
    name = quoted(text.numbered()[state])
    if all(found[1] != text.numbered()[state] for _, found in text.terms):
        return f"State {state}, {name}, is no term's current state."
    bits = f"{number:0{text.number(b'.i', 1)}b}"
    return f"State {state}, {name}, has no term for the input {bits}."


def explain_imported(words, data):
    text, _ = read_text(data)
    names = text.numbered()
    inputs = counted(2 ** text.number(b".i", 0), "input")
    lines = [f"The unit has {words[1]} bytes: {inputs} and {counted(len(names), 'state')}, by these names:"]
    return lines + [f"  state {state}: {name.decode()}" for state, name in enumerate(names)]


def explain_refusal(words, given):
    number, values = int(words[1]), words[2:]
    lines = [f"{REFUSALS[number]}: nothing is decided."]
    if values[:1] == ["N"]:
        return lines + explain_bound(read_unit(given[0].data))
    if number <= 6:
        return lines + explain_malformed(number, values[0], int(values[1]), given)
    if number == 17:
        if values[0] == "65536":
            return lines + ["The built dossier would have more than 65,535 bytes."]
        return lines + [f"The output has to have {values[0]} bytes."]
    if given[0].letter == "U":
        return lines + explain_unfit(number, values)
    if given[0].letter == "T":
        return lines + explain_text(number, values, given[0].data)
    dossier = read_dossier(given[0].data)
    if number <= 11:
        return lines + explain_unsound(number, values, dossier)
    if number <= 14:
        return lines + explain_unpaired(number, int(values[0]), dossier, read_sheet(given[1].data))
    unit = read_unit(given[1].data)
    if number == 15:
        return lines + [f"The unit has {unit.inputs} inputs, the dossier {dossier.golden.inputs}."]
    return lines + [f"The unit has {unit.states} states, and m is {dossier.bound}: the tests speak of no such part."]


def settled(dossier):
    most = counted(dossier.bound, "state")
    return [
        f"Settled: every word, for every part with at most {most} that resets before each test.",
        f"Not settled: a part with more than {most}, one that was not reset before each test, and one whose answers",
        "hang on anything but its state and the input.",
    ]


def explain_failing(words, given):
    """FAILS and DEVIATES: the test's answers side by side."""
    place, step = int(words[1]), int(words[2])
    dossier = read_dossier(given[0].data)
    word = dossier.tests[place]
    if words[0] == "FAILS":
        other = ("unit", read_unit(given[1].data).answer(word))
    else:
        other = ("sheet", dict(read_sheet(given[1].data))[word])
    rows = [("golden", dossier.golden.answer(word)), other]
    return [f"Test {place} ({word_text(word)}) is answered otherwise at step {step}:"] + answers_beside(word, rows, step)


def explain_telling(words, given):
    word = bytes(int(digit, 16) for digit in words[1])
    golden, unit = read_dossier(given[0].data).golden, read_unit(given[1].data)
    rows = [("golden", golden.answer(word)), ("unit", unit.answer(word))]
    lines = [f"{words[1]} is the shortest word that golden and unit answer otherwise, and the first of that length:"]
    return lines + answers_beside(word, rows, len(word) - 1)


def telling_words(dossier):
    """For each separating word of a found dossier the states that it was found for: of all words that tell the two apart it is
    the shortest, and the first by inputs among equals."""
    golden = dossier.golden
    words = sorted(dossier.separating, key=lambda word: (len(word), word))
    answers = [[golden.answer(word, state) for word in words] for state in range(golden.states)]
    found_for = {word: [] for word in dossier.separating}
    for first in range(golden.states):
        for second in range(first + 1, golden.states):
            told = next(word for word, one, other in zip(words, answers[first], answers[second]) if one != other)
            found_for[told].append((first, second))
    return found_for


def pairs_text(pairs):
    """The pairs by their first state, as `state 0 from 1, 2; state 1 from 2`."""
    others = {}
    for first, second in pairs:
        others.setdefault(first, []).append(str(second))
    return "; ".join(f"state {first} from {', '.join(seconds)}" for first, seconds in others.items())


def explain_found(words, dossier):
    lines = [f"The dossier has {words[1]} bytes: the unit's table, {bound_text(dossier)}, and no tests yet."]
    lines.append("The shortest word that leads to each state:")
    lines += [f"  state {state}: {word_text(word)}" for state, word in enumerate(dossier.cover)]
    if dossier.golden.states == 1:
        return lines + ["No two states are there to be told apart: the empty word, -, stands for all."]
    lines.append("The shortest words that tell states apart:")
    return lines + [f"  {word_text(word)}: {pairs_text(pairs)}" for word, pairs in telling_words(dossier).items()]


def explain(words, given, written=b""):
    said = words[0]
    if said == "REFUSED":
        return explain_refusal(words, given)
    if said == "FOUND":
        return explain_found(words, read_dossier(written))
    if said == "IMPORTED":
        return explain_imported(words, given[0].data)
    if said in ("FAILS", "DEVIATES"):
        return explain_failing(words, given)
    if said == "DIFFERS":
        return explain_telling(words, given)
    if said == "EQUAL":
        return ["Golden and unit answer every word alike."]
    dossier = read_dossier(given[0].data)
    if said == "PASSES":
        return [f"The unit answers all {counted(int(words[1]), 'test')} as the golden does."] + settled(dossier)
    if said == "AGREES":
        return ["Each test has one record, and its answer is the golden's."] + settled(dossier)
    if said == "ACCEPTED":
        return ["The tests are enough: a part that answers them as the golden does is settled."] + settled(dossier)
    if said == "BUILT":
        return [f"The dossier with its new tests has {words[1]} bytes. All other sections are as they were."]
    return [f"{counted(int(words[1]), 'test')}, {counted(int(words[2]), 'input')} in all: what a run of the suite feeds."]


# ---- showing files


def table_lines(machine):
    cells = [[f"{q}/{o}" for q, o in (machine.step(s, i) for i in range(machine.inputs))] for s in range(machine.states)]
    width = max(len(cell) for row in cells for cell in row) + 2
    lines = ["table (next state/output)", "  state" + "".join(f"{i:{width}x}" for i in range(machine.inputs))]
    return lines + [f"  {state:5}" + "".join(f"{cell:>{width}}" for cell in row) for state, row in enumerate(cells)]


def word_lines(name, words):
    total = sum(len(word) for word in words)
    lines = [f"{name}: {counted(len(words), 'word')}, {counted(total, 'input')}"]
    return lines + [f"  {place}: {word_text(word)}" for place, word in enumerate(words)]


def bound_text(dossier):
    return f"m = {dossier.bound}" + ("" if dossier.bound_byte else " (by default)")


def show_dossier(data, dossier):
    golden = dossier.golden
    lines = [f"dossier, {counted(len(data), 'byte')}: k = {golden.inputs}, n = {golden.states}, {bound_text(dossier)}"]
    lines += table_lines(golden)
    for name in ("cover", "separating", "tests"):
        lines += word_lines(name, getattr(dossier, name))
    return lines


def show_unit(data, unit):
    return [f"unit, {counted(len(data), 'byte')}: k = {unit.inputs}, u = {unit.states}"] + table_lines(unit)


def show_sheet(data, records):
    lines = [f"sheet, {counted(len(data), 'byte')}: {counted(len(records), 'record')}"]
    for place, (word, outputs) in enumerate(records):
        lines.append(f"  {place}: {word_text(word)} answered {' '.join(map(str, outputs)) or '-'}")
    return lines


def show_dot(machine):
    lines = ["digraph machine {", "    rankdir=LR;", "    start [shape=point];", "    start -> 0;"]
    for state in range(machine.states):
        for number in range(machine.inputs):
            to, output = machine.step(state, number)
            lines.append(f'    {state} -> {to} [label="{number:x} / {output}"];')
    return lines + ["}"]


SHOWN = {"dossier": show_dossier, "unit": show_unit, "sheet": show_sheet}


def read_any(data, sorts):
    """The first sort that the bytes read well as, and what they hold."""
    faults = []
    for sort in sorts:
        try:
            return sort, READERS[sort](data)
        except Stopped as fault:
            faults.append(f"as a {sort}: {fault}")
    raise Stopped("; ".join(faults))


def show(options):
    (given,) = read_all("S", [options.file])
    sorts = [options.sort] if options.sort else list(READERS)
    try:
        sort, held = read_any(given.data, sorts)
    except Stopped as fault:
        complain(f"{given.name} does not read well: {fault}")
        return REFUSED
    if not options.dot:
        lines = SHOWN[sort](given.data, held)
    elif sort == "sheet":
        raise Trouble("a sheet has no machine to draw")
    else:
        lines = show_dot(held.golden if sort == "dossier" else held)
    say(lines)
    return GOOD


# ---- the report


def as_code(name):
    """A name as code, in which Markdown looks for nothing; a backtick would end the code, and a bar the cell."""
    return "`" + printable(name).replace("`", r"\x60").replace("|", r"\x7c") + "`"


def report_file(file):
    """A file that is too long was not read to its end."""
    most = SORTS[file.letter][1]
    size, digest = str(len(file.data)), f"`{hashlib.sha256(file.data).hexdigest()}`"
    if len(file.data) > most:
        size, digest = f"more than {most}", "not taken"
    return f"| {file.sort} | {file.name} | {size} | {digest} |"


def report_lines(given, judged, cost):
    lines = ["# Correlation report", "", "| file | name | bytes | SHA-256 |", "|---|---|---|---|"]
    lines += [report_file(file) for file in given]
    lines += ["", "## Verdict", "", f"    {' '.join(judged)}", ""]
    explained = explain(judged, given)
    if judged[0] == "DEVIATES":
        lines += ["## First deviation", ""] + ["    " + line for line in explained] + [""]
    else:
        lines += explained + [""]
    if judged[0] != "REFUSED":
        lines += ["## What the bound assumes", ""] + bound_lines(read_dossier(given[0].data).bound) + [""]
    if cost[0] == "COST":
        lines += ["## Cost of the suite", "", f"{counted(int(cost[1]), 'test')}, {counted(int(cost[2]), 'input')}.", ""]
    return lines[:-1]


def bound_lines(bound):
    return [
        f"The dossier takes m = {bound}. That an agreeing sheet settles every word rests on this: the part has at most",
        f"{counted(bound, 'state')}, was reset before each test, and answers by its state and the input alone. No test can tell",
        "whether it is so. A deviation rests on none of it.",
    ]


def report(options):
    given = read_all("DS", [options.dossier, options.sheet])
    judged, _ = ask("judge", given)
    cost, _ = ask("cost", given[:1])
    named = [replace(file, name=as_code(os.path.basename(file.name))) for file in given]
    say(report_lines(named, judged, cost))
    return STATUS[judged[0]]


# ---- the operations


def state(name, standard):
    """What a name stands for now, where `-` is a standard stream; None where there is nothing."""
    try:
        return os.fstat(standard) if name == "-" else os.stat(name)
    except FileNotFoundError:
        return None
    except (OSError, ValueError) as fault:
        raise Trouble(f"{name} cannot be reached: {reason(fault)}") from fault


def is_standard_output(output):
    """Whether the output and the line would get into one file or pipe, by whatever name. A device does not mind."""
    there = state(output, 1)
    return output == "-" or there is not None and not stat.S_ISCHR(there.st_mode) and os.path.samestat(there, os.fstat(1))


def not_an_input(output, inputs):
    there = state(output, 1)
    for name in inputs:
        read = state(name, 0)
        if there and read and stat.S_ISREG(there.st_mode) and os.path.samestat(there, read):
            raise Trouble(f"{output} is read, and is not written over")


def write_output(name, data):
    """The output is written through links. A regular file has all of the data then, or is as it was."""
    there = state(name, 1)
    try:
        if there is None and not os.path.basename(name):
            raise IsADirectoryError(errno.EISDIR, os.strerror(errno.EISDIR))
        if there is None or stat.S_ISREG(there.st_mode):
            replace_file(os.path.realpath(name), data, there)
        else:
            write_into(name, data)
    except (OSError, ValueError) as fault:
        raise Trouble(f"{name} cannot be written: {reason(fault)}") from fault


def write_into(name, data):
    """A device or a pipe is written to and stays what it is. A reader that goes away is no fault of ours."""
    with suppress(BrokenPipeError), os.fdopen(os.open(name, os.O_WRONLY | os.O_NOCTTY), "wb") as file:
        file.write(data)


def replace_file(name, data, there=None):
    """A new file takes the place of the one that is there, if there is one, when all of it is on the disk."""
    if there is not None:
        hold_writable(name, there)
    folder = os.path.dirname(name)
    handle, temporary = tempfile.mkstemp(prefix=".hegdorvin-", dir=folder)
    try:
        with os.fdopen(handle, "wb") as file:
            file.write(data)
            file.flush()
            give_rights(handle, there)
            os.fsync(handle)
        os.replace(temporary, name)
    except BaseException:
        with suppress(FileNotFoundError):
            os.unlink(temporary)
        raise
    flush_folder(folder)


def hold_writable(name, there):
    """A file can be replaced without a right to write it, so that right is asked for here. root has it always; a file that
    nobody may write is read-only to root too."""
    if not there.st_mode & 0o222:
        raise PermissionError(errno.EACCES, "it is read-only")
    os.close(os.open(name, os.O_WRONLY))


def give_rights(handle, there):
    """Mode and owner of the file that was there, or the usual mode. Only root can give a file to another owner."""
    if there is None:
        os.fchmod(handle, 0o666 & ~current_mask())
        return
    for owner in (there.st_uid, -1):
        with suppress(OSError):
            os.fchown(handle, owner, there.st_gid)
            break
    os.fchmod(handle, stat.S_IMODE(there.st_mode))


def current_mask():
    mask = os.umask(0)
    os.umask(mask)
    return mask


def flush_folder(folder):
    """So that the new name is on the disk too. Some file systems cannot, and the file is whole without it."""
    with suppress(OSError):
        handle = os.open(folder, os.O_RDONLY)
        try:
            os.fsync(handle)
        finally:
            os.close(handle)


def mend(text):
    """The mended text. What was mended is said, whatever is answered then."""
    better, told = mended(text)
    for line in told:
        complain(f"{text.name}, {line}")
    return better


def operate(options):
    names = [getattr(options, SORTS[letter][0]) for letter in options.letters]
    output = getattr(options, "output", None)
    given = read_all(options.letters, names)
    if output is not None:
        not_an_input(output, names)
    if getattr(options, "mend", False):
        given = [mend(given[0])]
    words, written = ask(options.operation, given, getattr(options, "bound", None), output is not None)
    lines = [" ".join(words)] + (explain(words, given, written) if options.explain else [])
    if output is not None and is_standard_output(output):
        put(written, sys.stdout)
        say(lines, sys.stderr)
        return STATUS[words[0]]
    if words[0] in WRITTEN:
        write_output(output, written)
    say(lines)
    return STATUS[words[0]]


# ---- the demonstration: document 01's golden G for m = 3, and its unit V

GOLDEN = bytes.fromhex("0300020203040000000100000101000200000101010001000000")
UNIT = bytes.fromhex("020002030600020001000001010002000200")


def demo(_options):
    golden, unit = Given("D", "golden", GOLDEN), Given("U", "unit", UNIT)
    bureau()  # built before the first word is printed
    say(["The golden G has two states; parts of up to m = 3 states are to be told from it. Its tests are built:"])
    words, built = ask("build", [golden], has_output=True)
    dossier = Given("D", "dossier", built)
    say("    " + line for line in [" ".join(words)] + word_lines("tests", read_dossier(built).tests))
    for operation, said in (("check", "They are enough:"), ("run", "The unit V, which has a third state, is run over them:")):
        given = [dossier] if operation == "check" else [dossier, unit]
        words, _ = ask(operation, given)
        say([said] + ["    " + line for line in [" ".join(words)] + explain(words, given)])
    return GOOD


# ---- the words of the command

OPERATIONS = {
    "check": ("D", "says whether a dossier's tests are enough"),
    "build": ("D", "writes the dossier with new tests that are enough"),
    "run": ("DU", "runs a unit over a dossier's tests"),
    "compare": ("DU", "compares golden and unit on every word"),
    "judge": ("DS", "judges the recorded answers of a sheet, paired with the tests by their words"),
    "cost": ("D", "counts the tests and their inputs"),
    "find": ("U", "writes the dossier of a unit that is taken as golden, with cover and separating words and no tests yet"),
    "import": ("T", "writes the unit file of a KISS2 text"),
}

# The operations that write a file, and how it is named in their usage.
OUTPUTS = {"build": "output", "find": "output", "import": "unit"}

EXITS = """exit status: 0 ACCEPTED, BUILT, PASSES, EQUAL, AGREES, FOUND, IMPORTED or a cost; 1 FAILS, DIFFERS or DEVIATES; 2 a
refusal; 3 bad usage, a file that cannot be read or written, or any other trouble, said in one line. A file `-` is standard
input; an output `-` is standard output, and the line then goes to standard error."""


class Parser(argparse.ArgumentParser):
    """Bad usage has the exit status 3."""

    def error(self, message):
        raise Trouble(f"{message} (see {self.prog} --help)")


def bound_number(text):
    """A number that can be passed as a bound. Whether it is one the table decides."""
    if not re.fullmatch("[0-9]+", text) or int(text) > 255:
        raise argparse.ArgumentTypeError(f"{text} is no number from 0 to 255")
    return int(text)


def add_command(commands, name, says, action):
    command = commands.add_parser(name, help=says, description=f"{name} {says}.", epilog=EXITS)
    command.add_argument("--version", action="version", version=VERSION)
    command.set_defaults(action=action)
    return command


def parser():
    whole = Parser(prog="hegdorvin", description="Holds second-source sequencers against a golden unit.", epilog=EXITS)
    whole.add_argument("--version", action="version", version=VERSION)
    commands = whole.add_subparsers(dest="operation", required=True, metavar="COMMAND")
    for name, (letters, says) in OPERATIONS.items():
        command = add_command(commands, name, says, operate)
        command.set_defaults(letters=letters)
        for letter in letters:
            command.add_argument(SORTS[letter][0])
        if name == "find":
            command.add_argument("--bound", type=bound_number, default=0, metavar="M", help="the m to write; without it 0")
        if name in OUTPUTS:
            command.add_argument("output", metavar=OUTPUTS[name])
        if name == "import":
            mending = "first add an .e that is lacking, and drop an .r that names no term's state"
            command.add_argument("--mend", action="store_true", help=mending)
        command.add_argument("--explain", action="store_true", help="say in words what the answer means")
    command = add_command(commands, "show", "shows a dossier, a unit or a sheet as text", show)
    command.add_argument("file")
    command.add_argument("--as", dest="sort", choices=list(READERS), help="what the file is; without it the first that fits")
    command.add_argument("--dot", action="store_true", help="the machine, for Graphviz")
    command = add_command(commands, "report", "writes a correlation report of a sheet, in Markdown", report)
    command.add_argument("dossier")
    command.add_argument("sheet")
    add_command(commands, "demo", "goes through the worked example, from the golden to a verdict", demo)
    return whole


ENDING = (signal.SIGINT, signal.SIGTERM, signal.SIGHUP)


def heed_signals():
    """Whatever ends the command, it cleans up. A signal that is not to be heard, as under nohup, stays so."""
    for number in ENDING:
        if signal.getsignal(number) != signal.SIG_IGN:
            signal.signal(number, end_early)


def end_early(_number, _frame):
    """The first signal ends the command, and another does not disturb its cleaning up."""
    for number in ENDING:
        signal.signal(number, signal.SIG_IGN)
    raise KeyboardInterrupt


def hold_open():
    """The number of a closed stream goes to the next file that is opened, and what is meant for the one gets to the other."""
    opened = {"input": sys.stdin is not None, "output": is_open(sys.stdout), "error": is_open(sys.stderr)}
    for name, good in opened.items():
        if not good:
            raise Trouble(f"standard {name} is closed")


def act():
    try:
        options = parser().parse_args()
    except SystemExit:  # --help and --version
        return GOOD
    return options.action(options)


def main():
    try:
        hold_open()
        heed_signals()
        status = act()
        put(b"", sys.stdout)  # what argparse printed
        return status
    except (Trouble, Stopped) as trouble:
        complain(trouble)
    except KeyboardInterrupt:
        complain("stopped")
    except OSError as fault:
        complain(fault)
    return TROUBLE
