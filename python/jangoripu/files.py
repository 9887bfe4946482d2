"""Reading files: only regular ones, and no more of one than a text may have and one byte."""
from __future__ import annotations

import os
import re
import stat
from typing import NamedTuple, Optional

from .values import Path

FILE_BYTES = 32769
KINDS = {stat.S_IFIFO: "a FIFO", stat.S_IFSOCK: "a socket", stat.S_IFCHR: "a device", stat.S_IFBLK: "a device", stat.S_IFDIR: "a folder"}


class NotRegular(OSError):
    """What is named is no regular file."""


def shown(path: Path) -> str:
    """A path in one line that a terminal shows as it is: what cannot be shown is escaped."""
    return "".join(map(_shown, os.fsdecode(path)))


def _shown(sign: str) -> str:
    code = ord(sign)
    if 0xDC80 <= code <= 0xDCFF:  # a byte that is no text
        return f"\\x{code - 0xDC00:02x}"
    if sign == "\\":
        return "\\\\"
    if sign == " " or sign.isprintable():
        return sign
    known = {"\n": "\\n", "\t": "\\t", "\r": "\\r"}.get(sign)
    return known or (f"\\x{code:02x}" if code < 256 else f"\\u{code:04x}" if code < 65536 else f"\\U{code:08x}")


def read(path: Path) -> bytes:
    """A regular file's bytes, at most 32,769: a longer file is seen to be too long. Raises NotRegular at once for a FIFO, a device and
    so on, and OSError for a file that is absent or cannot be read."""
    _test(path, os.stat(path))
    file = os.open(path, os.O_RDONLY | os.O_NONBLOCK | os.O_NOCTTY | os.O_CLOEXEC)
    try:
        _test(path, os.fstat(file))
        return read_from(file)
    finally:
        os.close(file)


def read_from(file: int) -> bytes:
    """What a descriptor gives, at most 32,769 bytes."""
    parts, left = [], FILE_BYTES
    while left:
        part = os.read(file, left)
        if not part:
            break
        parts.append(part)
        left -= len(part)
    return b"".join(parts)


def _test(path: Path, found: os.stat_result) -> None:
    kind = stat.S_IFMT(found.st_mode)
    if kind != stat.S_IFREG:
        raise NotRegular(f"{shown(path)} is {KINDS.get(kind, 'no file')}, not a regular file")


def nearly(path: str) -> Optional[str]:
    """A file beside this one, which is absent, that may have been meant: in other letters, with .txt, or numbered as a second copy."""
    folder, name = os.path.split(path)
    stem, ending = (re.escape(part) for part in os.path.splitext(name.lower()))
    form = re.compile(rf"{stem}( ?\(\d+\)| - copy)?({ending})?(\.txt|{ending})?")
    try:
        return min((other for other in os.listdir(folder or ".") if form.fullmatch(other.lower())), default=None)
    except OSError:
        return None


class File(NamedTuple):
    """A file as it was found: its path, its bytes where it could be read, and else why not."""

    path: str
    text: Optional[bytes]
    trouble: Optional[str] = None

    @property
    def why(self) -> str:
        """Why it could not be read, in words; and whether there is a file of nearly its name."""
        path = shown(self.path)
        if self.trouble != "absent":
            return f"{path} cannot be read: {self.trouble}"
        if os.path.islink(self.path):
            return f"{path} is a link to a file that is not there"
        name, near = os.path.basename(self.path), nearly(self.path)
        return f"there is no file {path}" + (f", but there is {shown(near)}: rename it to {shown(name)}" if near else "")

    @property
    def known(self) -> bytes:
        """Its bytes; an absent or unreadable file is an empty text."""
        return self.text or b""


def look(path: str) -> File:
    """A file that may be absent or unreadable, as the programs take it: then as an empty text. NotRegular is raised all the same."""
    try:
        return File(path, read(path))
    except NotRegular:
        raise
    except OSError as error:
        return not_read(path, error)


def not_read(path: str, error: OSError) -> File:
    """A file that is absent or could not be read."""
    return File(path, None, "absent" if isinstance(error, FileNotFoundError) else error.strerror or str(error))
