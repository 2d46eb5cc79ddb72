#!/usr/bin/env python3
"""Judges verdicts by the library of include/hs_check.h: check.py COMMITTEE VERDICT

The library has to be a shared object, which is made of the archive by

    cc -shared -o libhs_check.so -Wl,--whole-archive libhs_check.a -Wl,--no-whole-archive

where ./install has not made it, and is found by the path in HS_CHECK_LIBRARY, or else by the name libhs_check.so, as the system
finds libraries.

As a program it prints what hs_check prints, and ends with status 0 where the verdict is accepted, 1 where it is
refused, and 2 where there is nothing to judge. As a module:

    finding = Checker("./libhs_check.so").check(committee, verdict)
"""

import ctypes
import os
import sys
from dataclasses import dataclass
from enum import IntEnum


class Rule(IntEnum):
    DOUBLE_VOTE = 1
    LOCK_VIOLATION = 2


class Refused(Exception):
    """The verdict is refused, by this number and name of docs/REFUSALS.md."""

    def __init__(self, number, name):
        super().__init__(f"refused {number} {name}")
        self.number, self.name = number, name


class CommitteeRefused(ValueError):
    """The committee's bytes are no committee, so nothing was judged."""

    def __init__(self, number, name):
        super().__init__(f"fault committee {number} {name}")
        self.number, self.name = number, name


@dataclass(frozen=True)
class Finding:
    """What an accepted verdict proves: this replica broke this rule, by its later vote in this view."""

    replica: int
    rule: Rule
    view: int

    def __str__(self):
        return f"accepted replica {self.replica} rule {self.rule.value} view {self.view}"


# As many bytes as each name and version needs.
_ROOM = 64


class _Finding(ctypes.Structure):
    """struct hs_finding"""

    _fields_ = [("view", ctypes.c_uint64), ("replica", ctypes.c_uint32), ("rule", ctypes.c_uint32)]


class Checker:
    """The checker of a shared object. It may be used by several threads at once."""

    def __init__(self, library="libhs_check.so"):
        loaded = ctypes.CDLL(library)
        text, room = [ctypes.c_char_p, ctypes.c_size_t], [ctypes.POINTER(ctypes.c_uint8), ctypes.c_size_t]
        self._call = loaded.hs_check
        self._call.argtypes, self._call.restype = [*text, *text, ctypes.POINTER(_Finding)], ctypes.c_int
        self._write_name = loaded.hs_check_name
        self._write_name.argtypes, self._write_name.restype = [ctypes.c_int, *room], ctypes.c_size_t
        self._write_version = loaded.hs_check_version
        self._write_version.argtypes, self._write_version.restype = room, ctypes.c_size_t

    def name(self, answer):
        """The name of what hs_check answered."""
        return self._written(self._write_name, answer)

    def version(self):
        """The library's version."""
        return self._written(self._write_version)

    @staticmethod
    def _written(call, *words):
        room = (ctypes.c_uint8 * _ROOM)()
        return bytes(room[: call(*words, room, len(room))]).decode()

    def check(self, committee, verdict):
        """Gives the Finding of a verdict that is accepted; raises Refused, or CommitteeRefused. Both texts are bytes.

        Take your own copy of the committee's file, never one that came with the verdict.
        """
        for text in (committee, verdict):
            # None would be NULL, which the library does not take.
            if not isinstance(text, bytes):
                raise TypeError(f"bytes are wanted, not {type(text).__name__}")
        written = _Finding()
        answer = self._call(committee, len(committee), verdict, len(verdict), ctypes.byref(written))
        if answer < 0:
            raise CommitteeRefused(-answer, self.name(answer))
        if answer > 0:
            raise Refused(answer, self.name(answer))
        return Finding(written.replica, Rule(written.rule), written.view)


def main(words):
    if len(words) != 2:
        print("usage: check.py COMMITTEE VERDICT", file=sys.stderr)
        return 2
    try:
        texts = []
        for path in words:
            with open(path, "rb") as file:
                texts.append(file.read())
        checker = Checker(os.environ.get("HS_CHECK_LIBRARY", "libhs_check.so"))
        print(checker.check(*texts), flush=True)
    except Refused as refused:
        print(refused, flush=True)
        return 1
    except (CommitteeRefused, OSError) as fault:
        print(fault, file=sys.stderr)
        return 2
    return 0


if __name__ == "__main__":
    sys.exit(main(sys.argv[1:]))
