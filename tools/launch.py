"""How tools/cases runs the program: over pipes, terminals, inputs that break and outputs without room."""
import collections
import difflib
import fcntl
import os
import resource
import select
import socket
import subprocess
import tempfile
import termios
import time

HEK, LIMIT, SHOWN, NOBODY = "bin/hek", 60, 12, 65534
Ran = collections.namedtuple("Ran", "status out err")
# What a case or a scene came to: how many passed, those that failed with their differences, and how many can't be run by why.
Sum = collections.namedtuple("Sum", "passed failed left")


def raw_terminal():
    """A terminal that changes no byte of what is written to it, and that ends its input at ^D."""
    ours, theirs = os.openpty()
    how = termios.tcgetattr(theirs)
    how[0] &= ~termios.ICRNL
    how[1] &= ~termios.OPOST
    how[3] &= ~(termios.ECHO | termios.ISIG)
    termios.tcsetattr(theirs, termios.TCSANOW, how)
    return ours, theirs


def narrow_pipe(room):
    """A pipe that takes so many bytes more; the next write waits until its reader leaves."""
    reader, writer = os.pipe()
    size = fcntl.fcntl(writer, fcntl.F_SETPIPE_SZ, 4096)
    os.write(writer, b" " * (size - room))
    return reader, writer, size - room


def typed(given):
    """What is typed to come to these bytes, and to the end of them: ^D ends an unfinished line first."""
    return given + (b"\x04" if given.endswith(b"\n") or not given else b"\x04\x04")


def take_all(pipes, given, process):
    """Writes the input and reads the outputs until they end: the bytes of each output."""
    took, open_ones, rest = {it: b"" for it in pipes["read"]}, set(pipes["read"]), memoryview(given)
    late = time.time() + LIMIT
    while open_ones:
        ready, free, _ = select.select(list(open_ones), [pipes["write"]] if pipes["write"] is not None else [], [], 1)
        if time.time() > late:
            process.kill()
            return None
        for it in free:
            try:
                rest = rest[os.write(it, rest[:65536]):]
            except (BrokenPipeError, OSError):
                rest = rest[:0]
            if not rest and not pipes["typed"]:
                os.close(it)
            pipes["write"] = it if rest else None
        for it in ready:
            try:
                piece = os.read(it, 65536)
            except OSError:  # the other end of a terminal is closed
                piece = b""
            took[it] += piece
            if not piece:
                open_ones.discard(it)
        # (what it wrote since the look above is read first: a terminal may hand it on late)
        if process.poll() is not None and pipes["typed"] and not ready and not select.select(list(open_ones), [], [], 0.5)[0]:
            break
    return took


def run(words, folder=None, given=b"", env=None, terminal=False, screen=False, display=False, room=None, leaves=None, full=False, locked=False, breaks=False, joined=False):
    """Runs a command line. With `joined` both outputs are one; `room` is the bytes that its output takes, `leaves` those after which its reader leaves, `full` forbids each byte of a
    file, `locked` each new file, and with `breaks` reading its input fails after the last byte."""
    plain = not (terminal or screen or display or breaks) and room is None and leaves is None
    how = {"cwd": folder, "env": env or {}, "start_new_session": True, "executable": HEK, **({"user": NOBODY} if locked and os.geteuid() == 0 else {})}
    if plain and not full:
        try:
            faults = subprocess.STDOUT if joined else subprocess.PIPE
            ended = subprocess.run(["hek", *words], input=given, stdout=subprocess.PIPE, stderr=faults, timeout=LIMIT, **how)
            return Ran(ended.returncode, ended.stdout, ended.stderr or b"")
        except subprocess.TimeoutExpired:
            return Ran(None, b"", b"(no end)\n")
    if room is not None or full:  # a file that may have so many bytes, for want of a device with as many
        how |= {"restore_signals": False, "preexec_fn": lambda: resource.setrlimit(resource.RLIMIT_FSIZE, (room or 0,) * 2)}
    ends, kept, before = {}, None, 0
    for name, is_terminal in (("stdin", terminal), ("stdout", display), ("stderr", screen)):
        if is_terminal:
            ends[name] = raw_terminal()
        elif name == "stdin" and breaks:  # the peer of a socket that goes with unread bytes
            ours, theirs = socket.socketpair()
            ours.sendall(given)
            theirs.send(b"-")
            ours.close()
            ends[name] = (None, theirs.detach())
        elif name == "stdout" and room is not None:
            kept = tempfile.TemporaryFile()
            ends[name] = (None, kept.fileno())
        elif name == "stdout" and leaves is not None:
            reader, writer, before = narrow_pipe(leaves)
            ends[name] = (reader, writer)
        else:
            reader, writer = os.pipe()
            ends[name] = (writer, reader) if name == "stdin" else (reader, writer)
    process = subprocess.Popen(["hek", *words], **{name: it[1] for name, it in ends.items()}, **how)
    for name, it in ends.items():
        if it[1] is not None and not (kept and it[1] == kept.fileno()):
            os.close(it[1])
    reads, out = [ends[it][0] for it in ("stdout", "stderr") if ends[it][0] is not None], ends["stdout"][0]
    if leaves is not None:
        reads.remove(out)
        time.sleep(0.05)
        left = os.read(out, 65536)
        os.close(out)
    took = take_all({"read": reads, "write": ends["stdin"][0], "typed": terminal}, typed(given) if terminal else given, process)
    status = process.wait()
    for it in [*reads, *([ends["stdin"][0]] if terminal else [])]:
        os.close(it)
    if took is None:
        return Ran(None, b"", b"(no end)\n")
    if kept:
        kept.seek(0)
        took[None] = kept.read()
    return Ran(status, left[before:] if leaves is not None else took[out], took[ends["stderr"][0]])


def told(number, *said):
    """What is wrong with a case."""
    return "\n".join(f"{number}: {said[0]}".splitlines() + [f"    {it}" for it in said[1:]])


def differing(wanted, came):
    """The first lines in which bytes differ."""
    texts = [it.decode(errors="backslashreplace").split("\n") for it in (wanted, came)]
    lines = [it.rstrip("\n") for it in difflib.unified_diff(*texts, "wanted", "came", lineterm="", n=0)]
    return lines[:SHOWN] + [f".. and {len(lines) - SHOWN} lines more"] * (len(lines) > SHOWN)
