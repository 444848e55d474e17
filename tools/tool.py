#!/usr/bin/env python3
"""What the tools share: how one takes its arguments, calls other programs, and ends when it can't go on. A module for the tools, and no tool itself."""
import argparse
import pathlib
import shutil
import signal
import subprocess
import sys

ROOT = pathlib.Path(__file__).resolve().parent.parent


class Stop(Exception):
    """Why a tool can't go on: input that it can't take, or a program that isn't there or fails."""


class Arguments(argparse.ArgumentParser):
    """The arguments of a tool, whose --help is the text at its head. A wrong one is told in one line."""

    def __init__(self, text):
        super().__init__(description=text, formatter_class=argparse.RawDescriptionHelpFormatter)

    def error(self, message):
        raise Stop(f"{message} (--help says how it is called)")


def read(path):
    """The text of a file, or what stops the tool."""
    try:
        return pathlib.Path(path).read_text(encoding="utf-8")
    except UnicodeDecodeError:
        raise Stop(f"{path} is not a text in UTF-8") from None


def read_input():
    try:
        return sys.stdin.buffer.read().decode("utf-8")
    except UnicodeDecodeError:
        raise Stop("the standard input is not a text in UTF-8") from None


def need(*programs):
    """Stops the tool where one of these programs isn't there."""
    missing = [program for program in programs if not shutil.which(program)]
    if missing:
        raise Stop(f"needs {' and '.join(programs)}; not on the PATH: {', '.join(missing)}")


def call(command, **options):
    """What a program prints; where it fails, what it said goes to standard error, and the tool stops."""
    done = subprocess.run([str(word) for word in command], stdout=subprocess.PIPE, stderr=subprocess.STDOUT, encoding="utf-8", errors="replace", **options)
    if done.returncode:
        sys.stderr.write(done.stdout)
        raise Stop(f"{' '.join(map(str, command))} failed, with exit status {done.returncode}")
    return done.stdout


def run(main):
    """Runs a tool, and ends it with the exit status that `main` gives, 0 for none; with 2 and a line on standard error where it stops."""
    if hasattr(signal, "SIGPIPE"):
        signal.signal(signal.SIGPIPE, signal.SIG_DFL)  # as other programs, it ends quietly where nobody reads on
    sys.stdout.reconfigure(encoding="utf-8")
    try:
        sys.exit(main())
    except Stop as why:
        reason = str(why)
    except OSError as error:
        reason = f"{error.filename}: {error.strerror}" if error.filename else str(error)
    except KeyboardInterrupt:
        reason = "interrupted"
    print(f"{pathlib.Path(sys.argv[0]).name}: {reason}", file=sys.stderr)
    sys.exit(2)


if __name__ == "__main__":
    print(__doc__, file=sys.stderr)
    sys.exit(2)
