"""The running program: a statement goes in, the lines of its answer come out.

Where an answer ends is known by the statement's first word, or else asked: behind the statement goes a `stats` of a cursor
that is nobody's, and its refusal is the line behind the answer. Nothing is kept in the database for it.
"""
from __future__ import annotations

import os
import re
import secrets
import shutil
import subprocess
import threading
from io import BufferedReader
from pathlib import Path
from typing import Callable, Iterator, Sequence, Tuple, TypeVar, cast

from .refusal import is_refusal

# a longer line is refused, be it a comment
MOST_BYTES = 8192
# so many bytes of statements go to the program at once: what the pipe of any system holds, so that a write never waits
AT_ONCE = 4096
# the statements whose answer is one line
ONE_LINE = frozenset("create insert delete load index open close stats".split())
# the statements whose answer is so many rows at most, and `end` where they are fewer
COUNTED = re.compile(r"[ \t]*(?:next[ \t]+\w+|show|far)[ \t]+(\d{1,9})(?!\w)", re.ASCII)
FIRST_WORD = re.compile(r"[ \t]*([A-Za-z_]\w*)", re.ASCII)
# what the program says by its status (docs/LANGUAGE.md, 'How a run ends')
STATUSES = {
    0: "the script was read to its end", 1: "the script was read to its end, and a line was refused",
    2: "the words of its command line aren't accepted", 3: "standard input failed", 4: "standard output failed",
    5: "the script has more than 16,777,216 bytes", 6: "memory was refused before the first line",
    7: "the disk failed before the first line", 8: "the journal failed", 9: "the journal is bad",
    10: "the disk failed while the kept changes were carried out again",
    11: "a page that was read while the kept changes were carried out again isn't the one that was written",
}
Found = TypeVar("Found")


def is_passed_over(line: str) -> bool:
    """Whether a line is blank or a comment, which answers nothing."""
    bare = line.lstrip(" \t")
    return not bare or bare.startswith("#")


class NoProgram(FileNotFoundError):
    """There is no program to start."""


class ProgramEnded(Exception):
    """The program has ended, so a statement had no answer, or only a part of one.

    `status` is the program's, below 0 where a signal ended it, and None where it was this side that ended it.
    """

    def __init__(self, status: int | None, said: str = "") -> None:
        super().__init__(status, said)
        self.status = status
        self.said = said

    def __str__(self) -> str:
        if self.status is None:
            return self.said
        told = f"by signal {-self.status}" if self.status < 0 else STATUSES.get(self.status, "a status of its own")
        return f"the program ended ({self.status}: {told})" + (f": {self.said}" if self.said else "")


def find_program(program: str | os.PathLike[str] | None = None) -> str:
    """The program's file: the one that is named, or `SAND` of the environment, the repository's, or the one on the path."""
    named = program or os.environ.get("SAND")
    if named:
        found = shutil.which(os.fspath(named))
        if found is None:
            raise NoProgram(f"no program can be started at {os.fspath(named)}")
        return found
    for above in list(Path(__file__).resolve().parents)[2:5]:
        for place in ("sand", "crates/sand_shell/out/sand_shell", "bin/sand"):
            if (above / place).is_file() and os.access(above / place, os.X_OK):
                return str(above / place)
    found = shutil.which("sand")
    if found is None:
        raise NoProgram("there is no program `sand`: build it (`make run`), or name it in the variable SAND")
    return found


class Program:
    """The program and its two streams. One statement is asked at a time, by whichever thread.

    The descriptors of `kept_open` stay open in the program as long as it runs: so a lock of a file is held until it has ended.
    """

    def __init__(self, words: list[str], folder: str | os.PathLike[str] | None = None, kept_open: Sequence[int] = ()) -> None:
        # a session of its own, so that an interrupt at the terminal is this side's alone
        self._process = subprocess.Popen(
            words, stdin=subprocess.PIPE, stdout=subprocess.PIPE, stderr=subprocess.PIPE, cwd=folder, start_new_session=True,
            pass_fds=kept_open)
        assert self._process.stdin and self._process.stdout
        self._input, self._output = self._process.stdin, cast(BufferedReader, self._process.stdout)
        self._mark = f"nobody_{secrets.token_hex(8)}"
        self._lock = threading.RLock()
        self._ended: ProgramEnded | None = None
        # bytes of the script so far, of which a run takes 16,777,216
        self.sent = 0

    @property
    def has_ended(self) -> bool:
        return self._ended is not None

    def answer(self, line: str) -> list[str]:
        """The lines that a statement prints, a refusal among them as the last."""
        if "\n" in line:
            raise ValueError("a statement is one line")
        return self._guarded(lambda: self._exchange(line))

    def answers(self, asked: Sequence[Tuple[str, int]]) -> list[list[str]]:
        """The lines of statements that print so many rows each at most, as `answer` gives them.

        Many go to the program in one write, and their answers come in few reads.
        """
        if any("\n" in line for line, _ in asked):
            raise ValueError("a statement is one line")
        return self._guarded(lambda: [lines for some in together(asked) for lines in self._exchange_all(some)])

    def _guarded(self, exchange: Callable[[], Found]) -> Found:
        """What an exchange gives; the program is ended where one is broken off."""
        with self._lock:
            if self._ended:
                raise self._ended
            try:
                return exchange()
            except (ProgramEnded, UnicodeEncodeError):
                raise
            except OSError:
                raise self._learn_end() from None
            except BaseException:
                # what is left of the answer would be taken for the next one
                self._process.kill()
                self._ended = ProgramEnded(None, "the program was ended, since a statement was broken off")
                self._release()
                raise

    def _exchange(self, line: str) -> list[str]:
        is_long = len(line.encode()) > MOST_BYTES
        bare = line[:-1] if line.endswith("\r") else line
        if not is_long and is_passed_over(bare):
            self._send(line)
            return []
        word = FIRST_WORD.match(line)
        if is_long or word and word[1] in ONE_LINE:
            self._send(line)
            return [self._read()]
        counted = COUNTED.match(line)
        if counted:
            self._send(line)
            return self._rows(int(counted[1]))
        self._send(f"{line}\nstats {self._mark}")
        lines = [self._read()]
        while not is_refusal(lines[-1]):
            lines.append(self._read())
        if len(lines) == 1 or not lines[-1].startswith("refused 21 "):
            self._read()
            return lines
        return lines[:-1]

    def _rows(self, count: int) -> list[str]:
        lines = [self._read()]
        while len(lines) < count and lines[-1] != "end" and not is_refusal(lines[-1]):
            lines.append(self._read())
        return lines

    def _exchange_all(self, asked: Sequence[Tuple[str, int]]) -> list[list[str]]:
        self._send("\n".join(line for line, _ in asked))
        printed = self._printed()
        answers = []
        for _, count in asked:
            lines = [next(printed)]
            while len(lines) < count and lines[-1] != "end" and not is_refusal(lines[-1]):
                lines.append(next(printed))
            answers.append(lines)
        return answers

    def _printed(self) -> Iterator[str]:
        """The lines that are printed, read in blocks: all of them are taken before anything else is read."""
        rest = b""
        while True:
            block = self._output.read1(1 << 16)
            if not block:
                raise self._learn_end()
            whole, end, rest = (rest + block).rpartition(b"\n")
            if end:
                yield from whole.decode().split("\n")

    def _send(self, line: str) -> None:
        text = line.encode() + b"\n"
        self.sent += len(text)
        self._input.write(text)
        self._input.flush()

    def _read(self) -> str:
        line = self._output.readline()
        if not line.endswith(b"\n"):
            raise self._learn_end()
        return line[:-1].decode()

    def _learn_end(self) -> ProgramEnded:
        self._ended = ProgramEnded(*self._release())
        return self._ended

    def _release(self) -> tuple[int, str]:
        """Closes the streams and waits; the status, and what was said on standard error."""
        for stream in (self._input, self._output):
            try:
                stream.close()
            except OSError:
                pass
        said = ""
        if self._process.stderr:
            said = self._process.stderr.read().decode(errors="replace").strip()
            self._process.stderr.close()
        return self._process.wait(), said

    def close(self) -> int | None:
        """Ends the script; the program's status, or None where it was known before."""
        with self._lock:
            if self._ended:
                return self._ended.status
            status, _ = self._release()
            self._ended = ProgramEnded(None, "the program was closed")
            return status


def together(asked: Sequence[Tuple[str, int]]) -> Iterator[Sequence[Tuple[str, int]]]:
    """Statements in runs, each of which goes to the program at once."""
    begin = size = 0
    for at, (line, _) in enumerate(asked):
        # a character may take four bytes
        length = 1 + (len(line) if line.isascii() else 4 * len(line))
        if size + length > AT_ONCE and at > begin:
            yield asked[begin:at]
            begin, size = at, 0
        size += length
    if asked:
        yield asked[begin:]
