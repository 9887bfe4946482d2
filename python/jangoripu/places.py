"""Where the proved library and programs are, and the version."""
import os
import re
from typing import NamedTuple

HERE = os.path.dirname(os.path.realpath(__file__))
SONAME = "libjangoripu.so.1"


class Places(NamedTuple):
    library: str
    programs: str


def places() -> Places:
    """The library and the folder of programs: inside the package (a wheel), of the repository, or of the folder installed into."""
    native = os.path.join(HERE, "native")
    if os.path.isdir(native):
        return Places(os.path.join(native, SONAME), native)
    root = os.path.dirname(os.path.dirname(HERE))
    if os.path.isfile(os.path.join(root, "crates.txt")):
        return Places(os.path.join(root, "target", "lib", SONAME), os.path.join(root, "target", "bin"))
    prefix = os.path.dirname(os.path.dirname(root))
    return Places(os.path.join(prefix, "lib", SONAME), os.path.join(prefix, "libexec", "jangoripu"))


def version() -> str:
    """The version: told by the file VERSION of a package that has left the repository, and there by the header."""
    try:
        with open(os.path.join(HERE, "VERSION"), encoding="ascii") as file:
            return file.read().strip()
    except FileNotFoundError:
        header = os.path.join(os.path.dirname(os.path.dirname(HERE)), "include", "jangoripu.h")
        with open(header, encoding="utf-8") as file:
            found = re.search(r'^#define JANGORIPU_VERSION "([^"]*)"$', file.read(), re.MULTILINE)
        if found is None:
            raise RuntimeError("the header names no version") from None
        return found.group(1)
