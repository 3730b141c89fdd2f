"""What all tools share: input that names its lines, and complaints of one line."""
from __future__ import annotations

import argparse
import contextlib
import csv
import gc
import io
import os
import sys
from typing import Callable, Iterable, Iterator, NamedTuple, NoReturn, Optional, TextIO

from frame import Frame

csv.field_size_limit(1 << 26)


class Complaint(Exception):
    """What is said, in one line, about input that can't be taken."""


def run(name: str, body: Callable[[list[str]], Optional[int]]) -> NoReturn:
    """Runs a tool on the words of its command line and ends with its status; 1 behind a complaint."""
    # data are trees, and a search for cycles among them finds none
    gc.disable()
    try:
        # UTF-8 whatever the surroundings say, and with a buffer of its own: without one a write may end half done
        sys.stdout = open(1, "w", encoding="utf-8", errors="replace", newline="\n", closefd=False)
        status = body(sys.argv[1:]) or 0
        sys.stdout.flush()
    except Complaint as complaint:
        status = say(f"{name}: {complaint}")
    except BrokenPipeError:
        status = say(f"{name}: standard output: its reader has closed it")
    except KeyboardInterrupt:
        status = 130
    except MemoryError:
        status = say(f"{name}: there isn't enough memory")
    except OSError as error:
        where = f"{error.filename}: " if error.filename else "standard output: "
        status = say(f"{name}: {where}{(error.strerror or str(error)).lower()}")
    try:
        sys.stdout.flush()
    except (OSError, AttributeError):
        # nothing is left to be written at the end, when it could only fail again
        os.dup2(os.open(os.devnull, os.O_WRONLY), 1)
    sys.exit(status)


def say(text: str) -> int:
    """Prints a line on standard error, behind what was printed before; the status of a complaint."""
    with contextlib.suppress(OSError, AttributeError):
        sys.stdout.flush()
    print(" ".join(text.split("\n")), file=sys.stderr)
    return 1


class Source(NamedTuple):
    """Input that was read whole: what it is called in complaints, and its text."""
    name: str
    text: str

    @classmethod
    def read(cls, file: Optional[str], may_be_empty: bool = False) -> Source:
        """The file's text, or that of standard input; a byte order mark at its start is no part of it."""
        name, content = read_bytes(file)
        if not content.strip() and not may_be_empty:
            raise Complaint(f"{name}:1: it is empty")
        try:
            return cls(name, content.decode("utf-8-sig"))
        except UnicodeDecodeError as error:
            line = content.count(b"\n", 0, error.start) + 1
            known = "UTF-16" if content[:2] in (b"\xff\xfe", b"\xfe\xff") else "LATIN1"
            raise Complaint(f"{name}:{line}: it isn't UTF-8; `iconv -f {known} -t UTF-8` makes it so, if it is {known}") from None

    def fail(self, line: int, what: str) -> NoReturn:
        raise Complaint(f"{self.name}:{line}: {what}")

    def lines(self) -> Iterator[tuple[int, str]]:
        """The lines with their numbers, from 1, without their ends."""
        return enumerate((line.rstrip("\n") for line in io.StringIO(self.text, newline=None)), 1)

    def records(self, delimiter: str, quoted: bool = True) -> Iterator[tuple[int, list[str]]]:
        """The records of comma-separated values, each with the line on which it begins; empty lines are none."""
        quoting = csv.QUOTE_MINIMAL if quoted else csv.QUOTE_NONE
        reader = csv.reader(io.StringIO(self.text, newline=""), delimiter=delimiter, quoting=quoting)
        line = 1
        try:
            for record in reader:
                if record:
                    yield line, record
                line = reader.line_num + 1
        except csv.Error as error:
            self.fail(line, str(error))


def read_bytes(file: Optional[str]) -> tuple[str, bytes]:
    """What a file is called in complaints, and its bytes; standard input where none is named."""
    if file is None or file == "-":
        if sys.stdin.isatty():
            print("(reads standard input; end it with control-D)", file=sys.stderr)
        return "standard input", sys.stdin.buffer.read()
    try:
        with open(file, "rb") as it:
            return file, it.read()
    except OSError as error:
        raise Complaint(f"{file}:1: {(error.strerror or str(error)).lower()}") from None


@contextlib.contextmanager
def output(file: Optional[str]) -> Iterator[TextIO]:
    """A file to be written, or standard output; both in UTF-8."""
    if file is None:
        yield sys.stdout
        sys.stdout.flush()
        return
    try:
        opened = open(file, "w", encoding="utf-8", newline="")
    except OSError as error:
        raise Complaint(f"{file}: {(error.strerror or str(error)).lower()}") from None
    with opened:
        yield opened


def counted(parts: Iterable[tuple[int, str]]) -> str:
    """`3 outside the frame, 1 with a hole`, of those that are any."""
    return ", ".join(f"{number:,} {what}" for number, what in parts if number)


class Words(argparse.ArgumentParser):
    """The words of a command line; one that isn't taken is complained of in one line."""

    def error(self, message: str) -> NoReturn:
        raise Complaint(f"{message}; --help tells the words")


def words_of(help_text: str, asked: Callable[[argparse.ArgumentParser], None], words: list[str]) -> argparse.Namespace:
    """The words of a command line that begins with a frame; `--help` prints the text and ends."""
    if {"-h", "--help"} & set(words):
        print(help_text.strip())
        sys.exit(0)
    parser = Words(usage=argparse.SUPPRESS, add_help=False)
    asked(parser)
    # a frame of the south begins with a `-` and is no option
    return parser.parse_args([f" {word}" if word[:1] == "-" and word[1:2].isdigit() else word for word in words])


def framed(word: str) -> Frame:
    """The frame that a word of the command line says."""
    try:
        return Frame.read(word)
    except ValueError as error:
        raise Complaint(f"the frame {word.strip()}: {error}") from None
