"""Runs of a program that are timed, as bench/lists.py and bench/zones.py compare them."""
import os
import subprocess
import sys
import tempfile
import time


class Run:
    """What one run printed, its seconds, and its memory in MB at most."""

    def __init__(self, words, lines=None):
        with tempfile.NamedTemporaryFile("r") as memory, tempfile.TemporaryFile() as out:
            begun = time.perf_counter()
            with open(lines or os.devnull) as given:
                done = subprocess.run(["/usr/bin/time", "-f", "%M", "-o", memory.name, *words], stdin=given, stdout=out, stderr=subprocess.PIPE)
            self.seconds = time.perf_counter() - begun
            if done.returncode:
                sys.exit(f"{os.path.basename(sys.argv[0])}: {words}: status {done.returncode}: {done.stderr.decode()[:300]}")
            self.memory = int(memory.read().split()[-1]) / 1024
            out.seek(0)
            self.text = out.read().decode()


def runs(words, lines=None, times=5):
    """The middle of some runs."""
    return sorted((Run(words, lines) for _ in range(times)), key=lambda run: run.seconds)[times // 2]
