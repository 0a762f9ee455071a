"""What a row is, and the rows of each command; README.md says how to write one."""
import shlex
from typing import NamedTuple

from .encode import script

FOLDER = None
# the status by how a line of the output begins, the first that fits; otherwise it is 0 (docs/output.md)
STATUSES = {"usage: ": 2, "file ": 4, "refused 28 ": 7, "refused 29 ": 7, "refused ": 3}


class Row(NamedTuple):
    """A call of the program. A file is bytes, or FOLDER. Where there is a sink, standard output goes there and isn't
    compared. Where there is room for so many bytes, standard output is a file that takes no more."""

    name: str
    words: list
    files: dict
    output: bytes
    status: int
    remark: str
    sink: str | None
    room: int | None


def call(name, words, files, *output, status=None, remark="", sink=None, room=None):
    """A row by the words and the lines of the output, of which there is only what there is room for."""
    if status is None:
        fitting = (STATUSES[front] for front in STATUSES if any(line.startswith(front) for line in output))
        status = next(fitting, 0)
    whole = script(*output)
    if room is not None and room < len(whole):
        whole, status = whole[:room], 5
    return Row(name, shlex.split(words), files, whole, status, remark, sink, room)


def diff(name, pre, post, *output, **more):
    return call(name, "diff pre.o post.o", {"pre.o": pre, "post.o": post}, *output, **more)


def code(name, image, function, *output, **more):
    return call(name, f"code image.kim {function}", {"image.kim": image}, *output, **more)


def match(name, image, pre, *output, **more):
    return call(name, "match image.kim pre.o", {"image.kim": image, "pre.o": pre}, *output, **more)


def run(name, image, lines, files=None, **more):
    """A session of these lines of a script, each a tuple with the lines of its reply after it."""
    files = {"image.kim": image, "script.txt": script(*(line for line, *_ in lines)), **(files or {})}
    return call(name, "run image.kim script.txt", files, *(said for _, *reply in lines for said in reply), **more)
