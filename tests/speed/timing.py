"""Runs of programs over event files: what they print, and the processor time that they take."""

import os
import subprocess
import time


class Program:
    """A command under a name; what reads no standard input has the file as its last word."""

    def __init__(self, name, words, named=False):
        self.name, self.words, self.named = name, words, named

    def command(self, path):
        return self.words + [path] if self.named else self.words

    def start(self, path, output):
        files = [(os.POSIX_SPAWN_OPEN, 0, path, os.O_RDONLY, 0), (os.POSIX_SPAWN_DUP2, output, 1)]
        words = self.command(path)
        return os.posix_spawnp(words[0], words, os.environ, file_actions=files)

    def printed(self, path):
        with open(path, "rb") as events:
            done = subprocess.run(self.command(path), stdin=events, stdout=subprocess.PIPE)
        if done.returncode != 0:
            raise SystemExit(f"tests/bench: {' '.join(self.words)}: status {done.returncode}")
        return done.stdout

    def time(self, path):
        """Seconds of a processor, of the program and of the system for it."""
        nothing = os.open(os.devnull, os.O_WRONLY)
        try:
            _, status, used = os.wait4(self.start(path, nothing), 0)
        finally:
            os.close(nothing)
        if status != 0:
            raise SystemExit(f"tests/bench: {' '.join(self.words)}: status {status}")
        return used.ru_utime + used.ru_stime

    def instructions(self, path):
        """How many instructions a run takes, as valgrind counts them: the same each time."""
        words = ["valgrind", "--tool=callgrind", "--callgrind-out-file=/dev/null"]
        with open(path, "rb") as events:
            done = subprocess.run(words + self.command(path), stdin=events, stdout=subprocess.DEVNULL,
                                  stderr=subprocess.PIPE, text=True)
        counts = [line.split()[-1] for line in done.stderr.splitlines() if "Collected" in line]
        if done.returncode != 0 or not counts:
            raise SystemExit(f"tests/bench: valgrind {' '.join(self.words)}: status {done.returncode}")
        return int(counts[0])

    def peak(self, path):
        """The most memory in use, in KiB, while it reads a file to its end.

        The kernel's own mark of the process, read before its input is closed: what wait4 tells of a child counts the
        memory of its parent too.
        """
        words = self.command(path)
        child = subprocess.Popen(words, stdin=subprocess.PIPE, stdout=subprocess.DEVNULL)
        with open(path, "rb") as events:
            while piece := events.read(1 << 20):
                child.stdin.write(piece)
        child.stdin.flush()
        time.sleep(0.2)
        with open(f"/proc/{child.pid}/status") as lines:
            marks = [line.split()[1] for line in lines if line.startswith("VmHWM:")]
        child.stdin.close()
        if child.wait() != 0:
            raise SystemExit(f"tests/bench: {' '.join(words)}: status {child.returncode}")
        return int(marks[0])


def least(programs, path, runs):
    """The least time of each program, by its name; they take turns, so that a slow moment meets all."""
    times = {program.name: [] for program in programs}
    for _ in range(runs):
        for program in programs:
            times[program.name].append(program.time(path))
    return {name: min(taken) for name, taken in times.items()}
