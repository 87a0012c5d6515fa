#!/usr/bin/env python3
"""Runs a command that proves and builds a program, and tells on standard error how far it is.

    tools/build_progress.py CRATE LOG -- COMMAND..

CRATE is the program's crate, LOG the file that takes all that the command prints. On a terminal there is one line, which is
rewritten: which crate of how many is at work, and how many of its functions are proved. Elsewhere there is one line for each
crate that is done. Crates that were proved before print nothing, and are passed over. The status is the command's.
"""
import os
import queue
import re
import subprocess
import sys
import threading
import time

TOP = os.path.dirname(os.path.dirname(os.path.realpath(__file__)))
# What the toolchain prints, line by line, as it works.
BEGINS = re.compile(r"^rt: (?:chose --jobs \d+ for (\w+)|(\w+): begins with )")
PROGRESS = re.compile(r"^(?:so far: |checked \S+, )(\d+) of (\d+)")
ITEM = re.compile(r"^\w+ (\w+)::\S+: proved")
DONE = re.compile(r"^logic=proved (?:\S+ )*?functions=(\d+)")


def crates_of(program):
    """The crates of this repository that the program is made of, the lowest first, and itself last."""
    below = {}
    with open(f"{TOP}/crates.txt", encoding="utf-8") as file:
        for line in file:
            name, colon, needs = line.partition("#")[0].partition(":")
            if colon:
                below[name.split()[0]] = needs.split()
    found = []

    def add(name):
        if name in below and name not in found:
            for low in below[name]:
                add(low)
            found.append(name)

    add(program)
    return found


def duration(seconds):
    minutes, seconds = divmod(int(seconds), 60)
    return f"{minutes} min {seconds} s" if minutes else f"{seconds} s"


class Progress:
    def __init__(self, crates):
        self.crates, self.crate, self.at, self.of = crates, None, None, None
        self.began = self.crate_began = time.monotonic()
        self.is_terminal = sys.stderr.isatty()
        self.shown, self.before = "", f"reading {len(crates)} crates"

    def write(self, text):
        try:
            sys.stderr.write(text)
            sys.stderr.flush()
        except OSError:
            pass

    def clear(self):
        if self.shown:
            self.write("\r\033[K")

    def place(self):
        if self.crate not in self.crates:
            return self.crate
        return f"{self.crate}, crate {self.crates.index(self.crate) + 1} of {len(self.crates)}"

    def show(self):
        """Rewrites the one line of a terminal."""
        if not self.is_terminal:
            return
        text = self.place() if self.crate else self.before
        if self.of:
            text += f": {self.at} of {self.of} functions proved"
        text = f"qconn: {text} ({duration(time.monotonic() - self.began)})"
        try:
            width = os.get_terminal_size(sys.stderr.fileno()).columns or 80
        except OSError:
            width = 80
        text = text[: width - 1]
        if text != self.shown:
            self.write(f"\r{text}\033[K")
            self.shown = text

    def enter(self, crate):
        if crate != self.crate:
            self.crate, self.at, self.of = crate, None, None
            self.crate_began = time.monotonic()

    def leave(self, functions):
        if self.crate:
            took = duration(time.monotonic() - self.crate_began)
            self.before = f"{self.place()}: {functions} functions proved in {took}"
            if not self.is_terminal:
                self.write(f"qconn: {self.before}\n")
        self.crate, self.at, self.of = None, None, None
        self.crate_began = time.monotonic()

    def take(self, line):
        if it := BEGINS.match(line):
            self.enter(it[1] or it[2])
        elif it := PROGRESS.match(line):
            self.at, self.of = int(it[1]), int(it[2])
        elif (it := ITEM.match(line)) and it[1] in self.crates:
            # A crate whose kept proofs all hold says nothing before its items.
            if self.crate is None:
                self.crate = it[1]
        elif it := DONE.match(line):
            self.leave(it[1])


def main():
    program, log, dashes, *command = sys.argv[1:]
    if dashes != "--" or not command:
        sys.exit(__doc__)
    progress = Progress(crates_of(program))
    lines = queue.Queue()
    with open(log, "wb") as kept:
        try:
            ran = subprocess.Popen(command, stdin=subprocess.DEVNULL, stdout=subprocess.PIPE, stderr=subprocess.STDOUT)
        except OSError as error:
            kept.write(f"{command[0]}: {error.strerror}\n".encode())
            sys.exit(127)

        def read():
            for line in ran.stdout:
                kept.write(line)
                kept.flush()
                lines.put(line.decode("utf-8", "replace"))
            lines.put(None)

        threading.Thread(target=read, daemon=True).start()
        line = ""
        try:
            while line is not None:
                progress.show()
                try:
                    line = lines.get(timeout=1)
                    if line is not None:
                        progress.take(line)
                except queue.Empty:
                    pass
            status = ran.wait()
        except KeyboardInterrupt:
            # The command was interrupted too, and ends by itself.
            ran.wait()
            status = 130
    progress.clear()
    if os.path.exists(f"{TOP}/crates/{program}/out/{program}"):
        progress.write(f"qconn: proved and built in {duration(time.monotonic() - progress.began)}\n")
    sys.exit(status if status >= 0 else 128 - status)


main()
