"""Programs that run side by side, each in a process group and a folder of its own.

    with Processes() as processes:
        run = processes.start(["program"], given=b"..")
        ended = processes.wait([run], until=time.monotonic() + 5)

None of them outlives the block, however it is left: what still runs then is ended with all that it has started, and the folders go. No call changes
a signal, the present folder or a state of this module, so that threads may each have a block of their own."""
from __future__ import annotations

import contextlib
import os
import pathlib
import signal
import subprocess
import time
from collections.abc import Callable, Iterable, Mapping, Sequence

from mps360.output import make_folder, temporary_folder, write_file

GRACE = 2.0               # seconds that a process group has between the request to end and the kill
SHORTEST, LONGEST = 0.001, 0.05   # seconds between two looks at what runs
MOST_FILE = 100_000_000   # bytes: a file of a program that grows past it ends the program

Tell = Callable[[str], None]
Place = pathlib.Path | None   # the folder in which a program runs, where it isn't one of its own


def size_of(path: pathlib.Path) -> int:
    "the size of a file in bytes, 0 where it has gone"
    try:
        return path.stat().st_size
    except OSError:
        return 0


class Process:
    "a program that runs, or has ended; what it prints goes to a file of its folder, what it says on standard error to another"

    def __init__(self, command: Sequence[str], folder: pathlib.Path, given: bytes, *, keeps: bool, tell: Tell | None, place: Place) -> None:
        self.folder, self.tell, self.heard, self.place = folder, tell, 0, place
        self.started, self.ended_at, self.was_ended = time.monotonic(), None, False   # type: float, float | None, bool
        self.output = folder / "output" if keeps else None
        self.said = folder / "said"
        self.room = folder / "room"
        write_file(folder / "given", given)
        with open(folder / "given", "rb") as source, open(self.said, "wb") as said, open(self.output or os.devnull, "wb") as output:
            self.child = subprocess.Popen(list(command), stdin=source, stdout=output, stderr=said, cwd=place or self.room, start_new_session=True)

    @property
    def status(self) -> int | None:
        "the exit status, below 0 for a signal; None while it runs"
        if self.has_ended():
            self.close()
        return self.child.returncode

    def has_ended(self) -> bool:
        "whether the program has ended; its number stays its own until close, so that no signal meets another program of this number"
        if self.child.returncode is not None:
            return True
        if not hasattr(os, "waitid"):
            return self.child.poll() is not None
        return os.waitid(os.P_PID, self.child.pid, os.WEXITED | os.WNOHANG | os.WNOWAIT) is not None

    @property
    def seconds(self) -> float:
        "elapsed seconds, by the wall clock, so far or in all"
        return (self.ended_at or time.monotonic()) - self.started

    def is_over(self) -> bool:
        "whether it has ended; on the way its new lines on standard error are told, and a file that grows without end ends it"
        over = self.has_ended()
        if over:
            self.close()
        elif not self.place and any(size_of(path) > MOST_FILE for path in self.files()):
            self.end()
            over = True
        self.relay()
        return over

    def files(self) -> list[pathlib.Path]:
        "the files that it writes beside its output"
        return [self.said, *self.room.iterdir()]

    def printed(self) -> bytes:
        "what it has printed so far"
        return self.output.read_bytes() if self.output and self.output.exists() else b""

    def relay(self) -> None:
        "tells the lines of standard error that are new and whole"
        if self.tell is None:
            return
        with open(self.said, "rb") as source:
            source.seek(self.heard)
            lines, newline, _ = source.read().rpartition(b"\n")
        if newline:
            self.heard += len(lines) + 1
            for line in lines.split(b"\n"):
                self.tell(line.decode("utf-8", "replace"))

    def ask_to_end(self) -> None:
        "asks the program and all of its process group to end, where it runs"
        if not self.has_ended():
            self.was_ended = True
            self.tell_group(signal.SIGTERM)

    def tell_group(self, number: signal.Signals) -> None:
        "sends a signal to the process group, where one is left"
        with contextlib.suppress(ProcessLookupError):
            os.killpg(self.child.pid, number)

    def close(self) -> None:
        "ends at once what is left of the process group: the program, where it runs, and what it has started and left behind"
        if self.child.returncode is None:
            self.was_ended = self.was_ended or not self.has_ended()
            self.tell_group(signal.SIGKILL)
            self.child.wait()
        self.ended_at = self.ended_at or time.monotonic()

    def end(self, grace: float = GRACE) -> None:
        "ends the program and all that it has started, after so many seconds at once"
        self.ask_to_end()
        until = time.monotonic() + grace
        try:
            while not self.has_ended() and time.monotonic() < until:
                time.sleep(SHORTEST)
        finally:
            self.close()


class Processes:
    "the programs of a block"

    def __init__(self) -> None:
        self.folder = temporary_folder()
        self.all: list[Process] = []

    def __enter__(self) -> Processes:
        return self

    def __exit__(self, *_: object) -> None:
        try:
            for process in self.all:
                process.ask_to_end()
            until = time.monotonic() + GRACE
            for process in self.all:
                process.end(max(0.0, until - time.monotonic()))
        finally:
            # (also where the wait for them was interrupted)
            for process in self.all:
                process.close()
            self.folder.cleanup()

    def start(self, command: Sequence[str], given: bytes = b"", *, files: Mapping[str, bytes] | None = None, keeps: bool = True,
              tell: Tell | None = None, place: Place = None) -> Process:
        """starts a program in a new folder, which has these files, or in another place; given is its standard input. keeps says whether its standard
        output is kept; tell gets its lines on standard error. OSError where it can't be run; CantWrite where its files can't be written."""
        folder = pathlib.Path(self.folder.name, str(len(self.all)))
        make_folder(folder / "room")
        for name, content in (files or {}).items():
            write_file(folder / "room" / name, content)
        process = Process(command, folder, given, keeps=keeps, tell=tell, place=place)
        self.all.append(process)
        return process

    @staticmethod
    def wait(processes: Iterable[Process], until: float | None = None, on_wait: Callable[[], None] | None = None) -> Process | None:
        """the first of these processes that has ended, in their order; None where none has at the time `until` (of time.monotonic, None: no end).
        on_wait is called again and again in between."""
        pause, waiting = SHORTEST, list(processes)
        while True:
            for process in waiting:
                if process.is_over():
                    return process
            now = time.monotonic()
            if until is not None and now >= until:
                return None
            if on_wait:
                on_wait()
            time.sleep(pause if until is None else max(0.0, min(pause, until - now)))
            pause = min(2 * pause, LONGEST)
