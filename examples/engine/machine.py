#!/usr/bin/env python3
"""The machine from Python, by ctypes: steps a schedule, and prints each reply.

    examples/engine/machine.py FILE [LIBRARY]

FILE is a schedule text. LIBRARY is bin/libhek_machine.so if not given (tools/build --machine makes it).
"""
import ctypes
import os
import signal
import sys

ROOT = os.path.dirname(os.path.dirname(os.path.dirname(os.path.realpath(__file__))))
MADE, BAD_LINE, NOT_TEXT, NO_MEMORY, NO_ROOM = range(5)


class Answer(ctypes.Structure):
    _fields_ = [("length", ctypes.c_uint64), ("line", ctypes.c_uint64), ("status", ctypes.c_uint32)]


class Fault(Exception):
    """Why the library made nothing."""


class Machine:
    """A schedule that grows by a line at a time."""

    def __init__(self, library, text=""):
        self.calls = ctypes.CDLL(library)
        self.calls.hek_run.restype = self.calls.hek_state.restype = Answer
        self.text = text

    def made(self, call, *words):
        """What a call writes: it is called again where the room is too small."""
        text, room = self.text.encode(), 4096
        while True:
            out = ctypes.create_string_buffer(room)
            sizes = [ctypes.c_uint64(it) for it in words]
            answer = call(text, ctypes.c_size_t(len(text)), *sizes, out, ctypes.c_size_t(room))
            if answer.status == NO_ROOM:
                room = answer.length
            elif answer.status == BAD_LINE:
                raise Fault(f"line {answer.line} of the schedule is at fault")
            elif answer.status != MADE:
                raise Fault(["", "", "the schedule is not UTF-8", "no memory"][answer.status])
            else:
                return out.raw[: answer.length].decode()

    def step(self, event):
        """Does an event, and answers its reply."""
        before, self.text = self.text, f"{self.text}{event}\n"
        try:
            return self.trace()[-1].partition(" -> ")[2]
        except Fault:
            self.text = before
            raise

    def trace(self):
        return self.made(self.calls.hek_run).splitlines()

    def state(self, steps):
        """The lines of the state after so many steps."""
        return self.made(self.calls.hek_state, steps).splitlines()[steps:]


def main(file, library=f"{ROOT}/bin/libhek_machine.so"):
    with open(file, encoding="utf-8") as it:
        lines = [line.partition("#")[0].split() for line in it]
    lines = [" ".join(line) for line in lines if line]
    opening = [line for line in lines if line.split()[0] in ("buckets", "row", "txn")]
    machine = Machine(library, "".join(f"{line}\n" for line in opening))
    steps = lines[len(opening) :]
    for event in steps:
        print(f"{event}: {machine.step(event)}")
    print(*machine.state(len(steps)), sep="\n")


if __name__ == "__main__":
    if len(sys.argv) not in (2, 3):
        sys.exit(__doc__)
    # Ends quietly where the reader of its output leaves.
    signal.signal(signal.SIGPIPE, signal.SIG_DFL)
    main(*sys.argv[1:])
