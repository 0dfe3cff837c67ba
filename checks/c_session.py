"""The calls for C (include/bokdrez.h) of out/libbokdrez.so, as checks/c_rows, checks/sessions and checks/marked make them."""
import ctypes
import json
import pathlib
import subprocess
import sys
from ctypes import POINTER, byref, c_char_p, c_size_t, c_uint32, c_uint64, c_void_p

TOP = pathlib.Path(__file__).resolve().parent.parent
LIBRARY = TOP / "out" / "libbokdrez.so"
DONE, NOT_A_JOB, LIMIT, REFUSED, NO_ROOM, STALE, NO_NODE = 0, 4, 5, 8, 10, 11, 12
KINDS = ["", "input", "elements", "numbers", "depth", "attributes", "value", "sheets", "text", "batches"]
STATES = ["hover", "active", "focus"]
# The edits that have a call without JSON.
SHORT = ("set", "unset", "state")


class Handle(ctypes.Structure):
    _fields_ = [("held", c_void_p)]


class Why(ctypes.Structure):
    _fields_ = [("what", c_uint32), ("kind", c_uint32), ("number", c_uint64)]


class Counts(ctypes.Structure):
    _fields_ = [("matched", c_uint64), ("cascaded", c_uint64)]


HANDLE, WHY, NEEDED = POINTER(Handle), POINTER(Why), POINTER(c_uint64)
CALLS = {
    "open": [c_char_p, c_size_t, HANDLE, WHY, c_char_p, c_size_t, NEEDED],
    "edit": [HANDLE, c_char_p, c_size_t, WHY, c_char_p, c_size_t, NEEDED],
    "set": [HANDLE, c_uint64, c_char_p, c_size_t, c_char_p, c_size_t, WHY],
    "unset": [HANDLE, c_uint64, c_char_p, c_size_t, WHY],
    "state": [HANDLE, c_uint64, c_uint32, c_uint32, WHY],
    "restyle": [HANDLE, POINTER(Counts)],
    "style": [HANDLE, c_uint64, c_char_p, c_size_t, NEEDED],
    "text": [HANDLE, c_char_p, c_size_t, NEEDED],
    "changed": [HANDLE, POINTER(c_uint32), c_size_t, NEEDED],
    "close": [HANDLE],
}


class Wrong(Exception):
    """A call did not tell what it should. Its text says what."""


class Session:
    """A session of the library."""

    def __init__(self, library):
        self.library, self.handle, self.why, self.needed = library, Handle(None), Why(), c_uint64()

    def call(self, name, *arguments):
        return getattr(self.library, "bokdrez_" + name)(byref(self.handle), *arguments)

    def open(self, job, room=0):
        """The status of opening a job, and the place that is told."""
        path = ctypes.create_string_buffer(room + 1)
        status = self.library.bokdrez_open(job, len(job), byref(self.handle), byref(self.why), path, room, byref(self.needed))
        if self.needed.value > room:
            return self.open(job, self.needed.value)
        return status, path.raw[:self.needed.value]

    def close(self):
        self.call("close")

    def edit(self, edit, is_short):
        """The status of an edit, by JSON or by its own call."""
        why, node = byref(self.why), edit.get("node")
        if not is_short:
            text = json.dumps(edit).encode()
            return self.call("edit", text, len(text), why, None, 0, byref(self.needed))
        if edit["op"] == "state":
            return self.call("state", node, STATES.index(edit["state"]), int(edit["on"]), why)
        name = edit["name"].encode()
        if edit["op"] == "unset":
            return self.call("unset", node, name, len(name), why)
        value = edit["value"].encode()
        return self.call("set", node, name, len(name), value, len(value), why)

    def restyle(self):
        counts = Counts()
        if self.call("restyle", byref(counts)) != DONE:
            raise Wrong("a restyle is not done")
        return counts

    def filled(self, what, make, *arguments):
        """What a call puts into a buffer, which it is asked for twice: without room, and with just the room."""
        status = self.call(*arguments, None, 0, byref(self.needed))
        needed = self.needed.value
        if status != (NO_ROOM if needed else DONE):
            raise Wrong("%s: status %d without room" % (what, status))
        buffer = make(needed)
        if self.call(*arguments, buffer, needed, byref(self.needed)) != DONE or self.needed.value != needed:
            raise Wrong("%s is not done with the room that it needs" % what)
        return buffer

    def asked_line(self, number):
        """The status of asking for the line of an element, without room for it."""
        return self.call("style", number, None, 0, byref(self.needed))

    def text(self):
        return self.filled("the text", ctypes.create_string_buffer, "text").raw[:self.needed.value]

    def line(self, number):
        return self.filled("a line", ctypes.create_string_buffer, "style", number).raw[:self.needed.value]

    def changed(self):
        return list(self.filled("what changed", lambda count: (c_uint32 * count)(), "changed"))


def loaded(path):
    library = ctypes.CDLL(str(path))
    for name, takes in CALLS.items():
        call = getattr(library, "bokdrez_" + name)
        call.argtypes, call.restype = takes, None if name == "close" else c_uint32
    return library


def why_text(why):
    """Why an edit was refused, as the program writes it."""
    if why.what == 4:
        return b"limit %s %d" % (KINDS[why.kind].encode(), why.number)
    return {1: b"unknown node %d" % why.number, 2: b"unknown sheet %d" % why.number, 3: b"bad place"}[why.what]


def option(argv, name, usage):
    """The word after an option, which is taken out. None: the option is not there."""
    if name not in argv:
        return None
    at = argv.index(name)
    if at + 1 == len(argv):
        sys.exit("usage: " + usage)
    word = argv[at + 1]
    del argv[at:at + 2]
    return word


def library_named(check, given):
    """The library of a path that is given, or else the one that tools/c_library makes, and 0. None: it is not there, and the
    check that asks ends with this status."""
    if not given and subprocess.run([TOP / "tools" / "c_library"], stdout=subprocess.DEVNULL).returncode:
        return None, 1
    path = pathlib.Path(given or LIBRARY).resolve()
    if not path.exists():
        print("%s: there is no %s" % (check, path), file=sys.stderr)
        return None, 1
    return loaded(path), 0
