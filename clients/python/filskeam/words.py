"""The words of a line: what may be in one, and how other texts are made to."""
import contextlib
import functools
import os
import re
import traceback
from typing import Callable, Tuple, Union

MOST_COMPONENT = 4_294_967_295
MOST_BYTES_OF_A_REMARK = 200
MOST_BYTES_OF_A_NAME = 32
GROUPS = ("all", "any", "mtc", "self")

Behaviour = Callable[..., object]
# A component's number, or "all"; where a status is asked or waited for, also "any".
Group = Union[int, str]


def name_word(word: object, what: str) -> str:
    """The word, if it is a name."""
    if isinstance(word, str) and re.fullmatch("[A-Za-z][A-Za-z0-9_]{0,31}", word) and word not in GROUPS:
        return word
    raise ValueError(f"{what} cannot be called {word!r}: a name has a letter, then letters, digits and _, 32 at most, "
                     "and is not all, any, mtc or self")


def component_word(it: object, groups: Tuple[str, ...] = ()) -> str:
    """The word for a component, or for one of these groups."""
    if isinstance(it, str) and it in groups:
        return it
    if isinstance(it, int) and not isinstance(it, bool) and 0 <= it <= MOST_COMPONENT:
        return str(it)
    wanted = " or ".join(["a component's number", *map(repr, groups)])
    raise ValueError(f"{it!r} is not {wanted}")


def plain_text(text: object, most: int = MOST_BYTES_OF_A_REMARK) -> str:
    """The text as a remark can hold it: other letters as escapes, white space as one space, cut if it is too long."""
    plain = " ".join(str(text).split()).encode("ascii", "backslashreplace").decode()
    plain = "".join(it if " " <= it <= "~" else f"\\x{ord(it):02x}" for it in plain)
    return plain if len(plain) <= most else plain[:most - 2] + ".."


def as_name(text: str, ending: str = "") -> str:
    name = re.sub("^[^A-Za-z]+", "", re.sub("[^A-Za-z0-9_]", "_", text))[:MOST_BYTES_OF_A_NAME - len(ending)].rstrip("_")
    return (f"{name or 'behaviour'}_" if name in ("", *GROUPS) else name) + ending


def name_of(behaviour: Behaviour) -> str:
    """The name of a behaviour in the evidence, made of that of its function."""
    while isinstance(behaviour, functools.partial):
        behaviour = behaviour.func
    return as_name(getattr(behaviour, "__name__", type(behaviour).__name__))


def told(raised: BaseException) -> str:
    """An exception in a line, with the last place in the file of the behaviour."""
    text = type(raised).__name__
    with contextlib.suppress(Exception):  # its own text may be broken
        text += f": {raised}" if str(raised) else ""
    frames = [it for it in traceback.extract_tb(raised.__traceback__) if os.path.dirname(it.filename) != os.path.dirname(__file__)]
    own = [it for it in frames if it.filename == frames[0].filename]
    place = f" ({plain_text(f'{os.path.basename(own[-1].filename)}:{own[-1].lineno}', 60)})" if own else ""
    return plain_text(text, MOST_BYTES_OF_A_REMARK - len(place)) + place
