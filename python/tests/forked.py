"""Runs the command without starting Python anew: in a process forked from the tests, which is several times as fast."""
import os
import sys
import tempfile
import traceback

from common import Ran
from jangoripu import command


def forked(*words, cwd=None, stdin=b""):
    """What the command does with these words. Only its start differs from the launcher's."""
    with tempfile.TemporaryFile() as given, tempfile.TemporaryFile() as out, tempfile.TemporaryFile() as err:
        given.write(stdin)
        given.seek(0)
        sys.stdout.flush()
        sys.stderr.flush()
        child = os.fork()
        if child == 0:
            _be_the_command(words, cwd, (given, out, err))
        _, status = os.waitpid(child, 0)
        out.seek(0)
        err.seek(0)
        return Ran(os.waitstatus_to_exitcode(status), out.read(), err.read())


def _be_the_command(words, cwd, files):
    status = 70
    try:
        for number, file in enumerate(files):
            os.dup2(file.fileno(), number)
        sys.stdin, sys.stdout, sys.stderr = (open(number, "rw"[number > 0], encoding="utf-8", closefd=False) for number in range(3))
        if cwd is not None:
            os.chdir(cwd)
        sys.argv = ["jangoripu", *map(os.fsdecode, words)]
        status = command.main()
    except BaseException:
        traceback.print_exc()
        sys.stderr.flush()
    finally:
        os._exit(status)
