"""Running the proved programs, each in a room of its own: a temporary folder with copies of its files. No shell is used."""
from __future__ import annotations

import contextlib
import os
import shutil
import signal
import subprocess
import tempfile
from typing import Dict, Iterator, Optional

from .places import places


class ProgramFailed(Exception):
    """A program that is not there, or wrote nothing."""


def plain_interrupts() -> None:
    """Has an interrupt end the process as any other signal does, at once and without a word."""
    if signal.getsignal(signal.SIGINT) is signal.default_int_handler:
        signal.signal(signal.SIGINT, signal.SIG_DFL)


@contextlib.contextmanager
def held_signals() -> Iterator[None]:
    """Signals wait until this is done."""
    before = signal.pthread_sigmask(signal.SIG_BLOCK, signal.valid_signals())
    try:
        yield
    finally:
        signal.pthread_sigmask(signal.SIG_SETMASK, before)


def run(program: str, files: Dict[str, Optional[bytes]]) -> bytes:
    """What a program writes in a folder with these files; one that is None is absent. Every program ends, and soon, since what it reads is
    bounded: so signals wait until it has, and its room is cleared away."""
    path = os.path.join(places().programs, program)
    if not os.access(path, os.X_OK):
        raise ProgramFailed(f"the program {path} is not there")
    with held_signals():
        room = tempfile.mkdtemp(prefix="jangoripu-")
        try:
            for name, text in files.items():
                if text is not None:
                    with open(os.path.join(room, name), "wb") as file:
                        file.write(text)
            ran = subprocess.run([path], cwd=room, stdin=subprocess.DEVNULL, stdout=subprocess.PIPE, stderr=subprocess.PIPE, check=False)
        finally:
            shutil.rmtree(room, ignore_errors=True)
    if ran.returncode != 0 or not ran.stdout:
        raise ProgramFailed(f"the program {path} wrote nothing")
    return ran.stdout
