"""Shells that stay, and start one program after another.

While Python starts a program, none of its threads runs until the new process has got a processor, and for that it waits where
all are at work. So of threads that do little but start programs, most wait for each other. Here a shell starts them, which lives
on and is told what to start. What a program reads and writes are files in memory, so that nobody waits at a pipe meanwhile. A
shell may be told of programs ahead: then it begins the next one by itself.
"""

from __future__ import annotations

import collections
import concurrent.futures
import contextlib
import os
import shlex
import subprocess
import threading
from collections.abc import Sequence

SHELL = "/bin/sh"
"""The shell: any that POSIX describes."""

Words = Sequence[str | os.PathLike[str]]
"""A program and its words."""

Ended = tuple[int, bytes, bytes]
"""The status of a program, negative where a signal ended it; what it wrote to standard output and to standard error."""

# An interrupt from the terminal ends the program, and then the shell, so that the next one isn't begun.
_FIRST = b"trap exit INT\n"
# Of a program that a signal ended the shell itself may say something: not where the program does. The status stays as it is
# where a file can't be opened.
_COMMAND = """\
status=none
{{ (exec {words} 2>&3 3>&-)
status=$?; }} </dev/fd/{given} >/dev/fd/{out} 3>/dev/fd/{err}
"""
# The shell has read a command to its end before it tells the status: from then on the file may hold the next one.
_NEXT = b'. /dev/fd/%d; told="$told $status"; '
_TELL = b"echo $told; told=\n"
_NOT_STARTED = (126, 127)
_SIGNAL = 128
_MOST_TOLD = 4096

_own = threading.local()
# A process that is forked from such a thread may not talk to its shell.
os.register_at_fork(after_in_child=lambda: _own.__dict__.clear())


class _Place:
    """The files of one start: what the shell is told, what the program reads, and what it writes."""

    def __init__(self, stack: contextlib.ExitStack) -> None:
        self.files = [_file(stack) for _ in range(4)]
        self._command, self._given, self._out, self._err = self.files
        self.line = _NEXT % self._command
        self._words: Words = ()

    def fill(self, words: Words, data: bytes) -> bool:
        """Notes what is to be started and what it reads; False where no shell can be told that."""
        # A sweep has the same words for many points.
        if words != self._words:
            quoted = " ".join(shlex.quote(os.fspath(word)) for word in words)
            try:
                command = os.fsencode(_COMMAND.format(words=quoted, given=self._given, out=self._out, err=self._err))
            except UnicodeEncodeError:
                return False
            if b"\0" in command:
                return False
            self._words = ()
            _fill(self._command, command)
            self._words = tuple(words)
        _fill(self._given, data)
        return True

    def empty(self) -> None:
        """Takes back what the shell is told, if it hasn't begun that."""
        os.ftruncate(self._command, 0)

    def ended(self, told: bytes) -> Ended | None:
        """What the program gave whose status the shell told; None where it wasn't started."""
        if not told.isdigit() or int(told) in _NOT_STARTED:
            return None
        status = int(told)
        return (_SIGNAL - status if status > _SIGNAL else status), _content(self._out), _content(self._err)


class Shell:
    """A shell that starts programs, one after another, in the folder and with the variables that there are when it is made.

    Parameters
    ----------
    ahead : int
        How many programs it may be told of while one runs.

    Raises
    ------
    OSError
        Where there is none, or it doesn't do what it is told, as where there is no `/dev/fd`.
    """

    def __init__(self, ahead: int = 0) -> None:
        with contextlib.ExitStack() as stack:
            self._free = collections.deque(_Place(stack) for _ in range(1 + ahead))
            self._asked: collections.deque[_Place] = collections.deque()
            files = [file for place in self._free for file in place.files]
            pipe, nothing = subprocess.PIPE, subprocess.DEVNULL
            process = subprocess.Popen([SHELL], stdin=pipe, stdout=pipe, stderr=nothing, bufsize=0, pass_fds=files)
            stack.callback(self._end)
            self._process = process
            assert process.stdin is not None and process.stdout is not None
            self._to, self._from = process.stdin, process.stdout
            self._write(_FIRST)
            if self.start([SHELL, "-c", "echo ready"], b"") != (0, b"ready\n", b""):
                raise OSError(f"{SHELL} doesn't start programs as it should")
            self._opened = stack.pop_all()

    def start(self, words: Words, data: bytes) -> Ended | None:
        """Starts a program and waits for its end, where it was told of none before.

        Parameters
        ----------
        words : sequence of str or path
            The program and its words.
        data : bytes
            What it reads from standard input.

        Returns
        -------
        tuple of int, bytes and bytes, or None
            Its status, negative where a signal ended it; what it wrote to standard output and to standard error. None where
            the shell couldn't start it, or is gone.
        """
        try:
            return self.hear()[0] if self.ask([(words, data)]) else None
        except OSError:
            return None

    def ask(self, starts: Sequence[tuple[Words, bytes]]) -> int:
        """Tells it to start programs, each with what it reads, behind those that it was told of before, and doesn't wait.

        What comes of them can be heard once all of these are over.

        Returns
        -------
        int
            Of how many it was told, from the first on: it can't be told of words with a zero byte, nor of more than there is
            room for.

        Raises
        ------
        OSError
            Where it is gone, or memory is full.
        """
        told = 0
        for place, (words, data) in zip(self._free, starts):
            if not place.fill(words, data):
                break
            told += 1
        if told:
            places = [self._free.popleft() for _ in range(told)]
            self._asked += places
            self._write(b"".join([*(place.line for place in places), _TELL]))
        return told

    def hear(self) -> list[Ended | None]:
        """Waits until programs are over, and gives what came of each, in their order; None where one wasn't started.

        Raises
        ------
        OSError
            Where the shell is gone, or tells something else.
        """
        told = os.read(self._from.fileno(), _MOST_TOLD).split()
        if not 0 < len(told) <= len(self._asked):
            raise OSError(f"{SHELL} is gone, or tells something else")
        found = []
        for status in told:
            place = self._asked.popleft()
            found.append(place.ended(status))
            self._free.append(place)
        return found

    def fileno(self) -> int:
        """The pipe from which `hear` reads, so that one may wait for several shells."""
        return self._from.fileno()

    def withdraw(self) -> None:
        """Takes back what it was told and hasn't begun."""
        for place in self._asked:
            place.empty()

    def close(self) -> None:
        """Ends the shell, once the program that runs is over."""
        self._free.clear()
        self._opened.close()

    def _write(self, line: bytes) -> None:
        os.write(self._to.fileno(), line)

    def _end(self) -> None:
        self.withdraw()
        # It is told, as to close the pipe says nothing where another process has it too, by a fork meanwhile.
        with contextlib.suppress(OSError):
            self._write(b"exit\n")
        self._to.close()
        self._from.close()
        self._process.wait()


class ShellThreads(concurrent.futures.ThreadPoolExecutor):
    """A pool of threads in which `programs.start` starts a program by the thread's own shell.

    Where a shell can't be had, it starts it as elsewhere. A sweep that is handed such a pool has as many shells, and needs no
    threads (`buszlogem.crew`).

    Parameters
    ----------
    threads : int
        How many programs run at once at most, from 1 on.

    Raises
    ------
    ValueError
        Where `threads` is less.
    """

    def __init__(self, threads: int) -> None:
        super().__init__(threads, initializer=self._begin)
        self.threads = threads
        self._shells: list[Shell] = []

    def _begin(self) -> None:
        with contextlib.suppress(OSError):
            _own.shell = Shell()
            self._shells.append(_own.shell)

    def shutdown(self, wait: bool = True, *, cancel_futures: bool = False) -> None:
        """As that of any executor. Without `wait` the shells end with this process."""
        super().shutdown(wait, cancel_futures=cancel_futures)
        while wait and self._shells:
            self._shells.pop().close()


def own_shell() -> Shell | None:
    """The shell of the thread that asks, where it has one."""
    return getattr(_own, "shell", None)


def _file(stack: contextlib.ExitStack) -> int:
    if not hasattr(os, "memfd_create"):
        raise OSError("there are no files in memory")
    file = os.memfd_create("buszlogem")
    stack.callback(os.close, file)
    return file


def _fill(file: int, data: bytes) -> None:
    if os.pwrite(file, data, 0) < len(data):
        raise OSError("memory is full")
    os.ftruncate(file, len(data))


def _content(file: int) -> bytes:
    return os.pread(file, os.fstat(file).st_size, 0)
