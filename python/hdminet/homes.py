"""Where the program, the suite, the page and the examples stand: in `home` of this package, or where tools/install has put them."""

from __future__ import annotations

import os
import shutil
import subprocess
import sys
from typing import NoReturn

# What a folder has that is such a home.
_MARK = os.path.join("tools", "suite")


def home() -> str:
    """The folder with release/, tools/, suite/ and examples/."""
    here = os.path.dirname(os.path.realpath(__file__))
    up = os.path.dirname(os.path.dirname(here))
    for folder in (os.path.join(here, "home"), os.path.join(up, "share", "hdminet"), up):
        if os.path.isfile(os.path.join(folder, _MARK)):
            return folder
    raise FileNotFoundError("the files of hdminet are not beside its module: pip install, or tools/install, puts them there")


def program() -> str:
    """The program hdminet: HDMINET_PROGRAM, the one of the home, or one in the PATH."""
    named = os.environ.get("HDMINET_PROGRAM")
    if named:
        return named
    try:
        found = os.path.join(home(), "release", "hdminet")
        if os.path.isfile(found):
            if not os.access(found, os.X_OK):
                os.chmod(found, 0o755)
            return found
    except OSError:
        pass
    in_path = shutil.which("hdminet")
    if in_path:
        return in_path
    raise FileNotFoundError("there is no program hdminet")


def tool(name: str) -> str:
    """A tool of the home."""
    return os.path.join(home(), "tools", name)


def _start(*words: str) -> NoReturn:
    try:
        os.execv(words[0], [*words, *sys.argv[1:]])
    except OSError as error:
        sys.exit("%s: %s" % (words[0], error.strerror))


def run_program() -> NoReturn:
    """The console script hdminet."""
    _start(program())


def run_suite() -> NoReturn:
    """The console script hdminet-suite."""
    _start(sys.executable, tool("suite"))


def run_look() -> int:
    """The console script hdminet-look."""
    return subprocess.run(["bash", tool("look"), *sys.argv[1:]], check=False).returncode


def run_junit() -> NoReturn:
    """The console script hdminet-junit."""
    os.environ["HDMINET_PROGRAM"] = program()
    _start(sys.executable, tool("junit.py"))
