"""The proved programs, run through tools/run, and a sheet as a script of `replay` has it."""

import pathlib
import signal
import subprocess
import sys

ROOT = pathlib.Path(__file__).resolve().parent.parent.parent


def run(name, text):
    """The lines that a program prints for this input. Where it fails it has said why on standard error."""
    done = subprocess.run([ROOT / "tools/run", name], input=text, stdout=subprocess.PIPE)
    if done.returncode != 0:
        sys.exit(done.returncode)
    if not done.stdout:
        sys.exit(f"{name} printed nothing")
    return done.stdout.decode().splitlines()


def replay(lines):
    """What `replay` answers to the lines of a script."""
    return run("replay", b"".join(line + b"\n" for line in lines))


def restoring(sheet):
    """The lines of a script that restore a sheet.

    A last line without its end is none of a sheet (41), but would be one of a script: an empty line, which is
    none of either, stands in its place.
    """
    lines = sheet.split(b"\n")
    if lines.pop():
        lines.append(b"")
    return [b"restore %d" % len(lines)] + lines


def put(text):
    """Prints lines, as text or as bytes, at the end of a run; that nobody reads them to their end is no failure."""
    signal.signal(signal.SIGPIPE, signal.SIG_DFL)
    sys.stdout.buffer.write((text if isinstance(text, bytes) else text.encode()) + b"\n")
    sys.stdout.flush()
