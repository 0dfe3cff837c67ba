#!/usr/bin/env python3
"""A page of 200 elements that takes 1,000 edits, in Python. It prints what each edit changed, and at the end all styles.

In the folder above, where tools/c_library has made the library behind ./style build (it can't be tried unproved), this runs it:

  python3 examples/embed.py out/libbokdrez.so

examples/embed.c does the same in C, and prints the same text.
"""
import ctypes
import json
import sys
from ctypes import POINTER, byref, c_char_p, c_size_t, c_uint32, c_uint64, c_void_p

SECTIONS, PARAGRAPHS, EDITS = 18, 9, 1000
ELEMENTS = 2 + SECTIONS * (2 + PARAGRAPHS)
VERSION = 1
DONE, NOT_A_JOB, LIMIT, REFUSED, NO_ROOM = 0, 4, 5, 8, 10
STATUSES = {
    3: "the bytes are no JSON value",
    4: "the value is of another shape",
    5: "a limit is passed",
    7: "there is no memory",
    8: "the edit is refused",
    9: "there is no session",
    10: "the buffer is too small",
    11: "the style is stale",
    12: "there is no such element",
    13: "an argument is wrong",
}
HOVER = 0


class Handle(ctypes.Structure):
    _fields_ = [("held", c_void_p)]


class Why(ctypes.Structure):
    _fields_ = [("what", c_uint32), ("kind", c_uint32), ("number", c_uint64)]


class Counts(ctypes.Structure):
    _fields_ = [("matched", c_uint64), ("cascaded", c_uint64)]


HANDLE, WHY, NEEDED = POINTER(Handle), POINTER(Why), POINTER(c_uint64)
# What each call takes. Bytes are a pointer and a length.
CALLS = {
    "version": [],
    "open": [c_char_p, c_size_t, HANDLE, WHY, c_char_p, c_size_t, NEEDED],
    "edit": [HANDLE, c_char_p, c_size_t, WHY, c_char_p, c_size_t, NEEDED],
    "set": [HANDLE, c_uint64, c_char_p, c_size_t, c_char_p, c_size_t, WHY],
    "unset": [HANDLE, c_uint64, c_char_p, c_size_t, WHY],
    "state": [HANDLE, c_uint64, c_uint32, c_uint32, WHY],
    "restyle": [HANDLE, POINTER(Counts)],
    "style": [HANDLE, c_uint64, c_char_p, c_size_t, NEEDED],
    "text": [HANDLE, c_char_p, c_size_t, NEEDED],
    "changed": [HANDLE, POINTER(c_uint32), c_size_t, NEEDED],
    "close": [HANDLE],
}


class Refused(Exception):
    """An edit was refused. Its text is why."""


class Session:
    """A page with its sheets. `with` closes it."""

    def __init__(self, path, job):
        library = ctypes.CDLL(path)
        for name, takes in CALLS.items():
            call = getattr(library, "bokdrez_" + name)
            call.argtypes, call.restype = takes, None if name == "close" else c_uint32
            setattr(self, "call_" + name, call)
        if self.call_version() != VERSION:
            sys.exit("embed: the library is of another version")
        self.handle, self.why, self.needed = Handle(None), Why(), c_uint64()
        self.path, self.buffer, self.numbers = ctypes.create_string_buffer(256), ctypes.create_string_buffer(1), (c_uint32 * 1)()
        status = self.call_open(job, len(job), byref(self.handle), byref(self.why), *self.place())
        self.want_done("bokdrez_open", status)

    def __enter__(self):
        return self

    def __exit__(self, *_):
        self.call_close(byref(self.handle))

    def place(self):
        """The arguments that take the place of a fault."""
        return self.path, len(self.path), byref(self.needed)

    def want_done(self, call, status):
        """Ends the program where a call did not end with Done: there is nothing better to do here."""
        if status == DONE:
            return
        said = "embed: %s: %s" % (call, STATUSES.get(status, "the status is unknown"))
        if status == NOT_A_JOB and self.needed.value <= len(self.path):
            said += ", at '%s'" % self.path.raw[:self.needed.value].decode()
        if status == LIMIT:
            said += ", of kind %d: %d" % (self.why.kind, self.why.number)
        sys.exit(said)

    def want_made(self, status):
        """Raises why an edit was refused, if it was."""
        if status == REFUSED:
            number = self.why.number
            raise Refused({
                1: "there is no element %d" % number,
                2: "there is no sheet %d" % number,
                3: "it can't be there",
                4: "a limit of kind %d: %d" % (self.why.kind, number),
            }[self.why.what])
        self.want_done("an edit", status)

    def edit(self, edit):
        text = json.dumps(edit).encode()
        self.want_made(self.call_edit(byref(self.handle), text, len(text), byref(self.why), *self.place()))

    def set(self, node, name, value):
        name, value = name.encode(), value.encode()
        self.want_made(self.call_set(byref(self.handle), node, name, len(name), value, len(value), byref(self.why)))

    def unset(self, node, name):
        name = name.encode()
        self.want_made(self.call_unset(byref(self.handle), node, name, len(name), byref(self.why)))

    def state(self, node, which, on):
        self.want_made(self.call_state(byref(self.handle), node, which, on, byref(self.why)))

    def restyle(self):
        """Styles again, and answers how many elements were matched and cascaded."""
        counts = Counts()
        self.want_done("bokdrez_restyle", self.call_restyle(byref(self.handle), byref(counts)))
        return counts.matched, counts.cascaded

    def changed(self):
        """The elements that the last restyle went to, in order."""
        def call():
            return self.call_changed(byref(self.handle), self.numbers, len(self.numbers), byref(self.needed))

        status = call()
        if status == NO_ROOM:
            self.numbers = (c_uint32 * self.needed.value)()
            status = call()
        self.want_done("bokdrez_changed", status)
        return sorted(self.numbers[:self.needed.value])

    def lines(self, number=None):
        """The line of one element, or of all of them."""
        def call():
            room = self.buffer, len(self.buffer), byref(self.needed)
            return self.call_text(byref(self.handle), *room) if number is None else self.call_style(byref(self.handle), number, *room)

        status = call()
        if status == NO_ROOM:
            self.buffer = ctypes.create_string_buffer(self.needed.value)
            status = call()
        self.want_done("reading styles", status)
        return self.buffer.raw[:self.needed.value].decode()


def page():
    """The page: a body with sections, each with a heading and some paragraphs. Elements are numbered from 1 in the order of
    the list, but `parent` is a place in the list, from 0."""
    nodes = [{"tag": "html"}, {"tag": "body", "parent": 0}]
    for section in range(SECTIONS):
        place = len(nodes)
        nodes += [{"tag": "section", "parent": 1}, {"tag": "h2", "parent": place}]
        for paragraph in range(PARAGRAPHS):
            nodes.append({"tag": "p", "parent": place, "attrs": {"class": "c%d" % ((section + paragraph) % 5)}})
    text = "h2{font-size:larger} p{color:navy}"
    for number in range(5):
        text += " .c%d{width:%dpx}" % (number, 10 * (number + 1))
    text += " .c3{font-size:2em} section:hover{color:green} section:hover h2{visibility:hidden} p:first-child{clear:both}"
    return json.dumps({"version": 1, "nodes": nodes, "sheets": [{"origin": "author", "text": text}]}).encode()


def section_number(section):
    return 3 + section % SECTIONS * (2 + PARAGRAPHS)


def paragraph_number(paragraph):
    return section_number(paragraph // PARAGRAPHS) + 2 + paragraph % PARAGRAPHS


def make_edit(session, number, following):
    """Makes the edit of a number, where `following` is the number that the next element gets which an edit puts in. Each
    120th names an element that is gone. Answers the number that the next one gets then."""
    section, paragraph, value = section_number(number // 6 * 7), paragraph_number(number * 37), "c%d" % (number % 7)
    kind = number % 6
    if number % 120 == 0:
        session.set(following - 1, "class", value)
    elif kind == 0:
        session.set(paragraph, "class", value)
    elif kind in (1, 2):
        session.state(section, HOVER, 2 - kind)
    elif kind == 3:
        session.unset(paragraph, "class")
    elif kind == 4:
        session.edit({"op": "insert", "parent": section, "index": 0, "nodes": [{"tag": "p"}]})
    else:
        session.edit({"op": "remove", "node": following})
        return following + 1
    return following


def restyled(session):
    """Styles again. What changed as it is printed, and the elements."""
    matched, cascaded = session.restyle()
    changed = session.changed()
    listed = ": " + " ".join(map(str, changed)) if changed else ""
    return "%d matched, %d cascaded%s\n" % (matched, cascaded, listed), changed


def main(argv):
    if len(argv) != 1:
        sys.exit("usage: examples/embed.py PATH/libbokdrez.so")
    write = sys.stdout.write
    with Session(argv[0], page()) as session:
        write("page: " + restyled(session)[0])
        following = ELEMENTS + 1
        for number in range(1, EDITS + 1):
            try:
                following = make_edit(session, number, following)
            except Refused as why:
                write("edit %d: refused: %s\n" % (number, why))
                continue
            said, changed = restyled(session)
            write("edit %d: %s" % (number, said))
            if len(changed) == 1:
                write(session.lines(changed[0]))
        write(session.lines())


if __name__ == "__main__":
    main(sys.argv[1:])
