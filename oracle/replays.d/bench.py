"""Whole replays timed: the Rust's program and ours, and an earlier one of ours where it is named, on the same files in turn, to /dev/null."""

import os
import statistics
import subprocess
import sys
import time

import numpy as np

from cases import HOLE, written

TURNS = 7


def make(path, lanes, kind, holes, megabytes):
    """A slow wave with noise, written in parts so that a large file needs little memory. With holes, one cell in a thousand is one."""
    rows = megabytes * 1_000_000 // (lanes * 3 * np.dtype(kind).itemsize)
    settings = np.tile(np.array([[0.3, 0.5, 0.02, 0.01, 0.004]], dtype="<f4"), (lanes, 1))
    rng = np.random.default_rng(7)
    with open(path, "wb") as to:
        to.write(written(settings, (1, 0)))
        np.lib.format.write_array_header_1_0(to, {"descr": kind, "fortran_order": False, "shape": (rows, 3 * lanes)})
        for first in range(0, rows, 100_000):
            n = min(100_000, rows - first)
            at = np.arange(first * 3 * lanes, (first + n) * 3 * lanes, dtype="f8")
            wave = np.sin(at / 900) * 1.05 + (rng.random(at.size) - 0.5) * 0.1
            cells = wave.astype("<f4") if kind == "<f4" else np.round(wave * 1000).astype("<i2")
            if holes:
                cells[rng.random(at.size) < 0.001] = HOLE
            to.write(cells.tobytes())


def run(program, path):
    with open(path, "rb") as file, open(os.devnull, "wb") as nowhere:
        start = time.perf_counter()
        subprocess.run([program], stdin=file, stdout=nowhere, stderr=subprocess.DEVNULL, check=True)
        return time.perf_counter() - start


def main():
    rust, ours, megabytes, folder, *before = sys.argv[1:]
    for kind, holes in (("<f4", False), ("<i2", False), ("<i2", True)):
        for lanes in (1, 8):
            path = f"{folder}/bench.npy.bin"
            make(path, lanes, kind, holes, int(megabytes))
            times = {program: [] for program in (rust, *before, ours)}
            for _ in range(TURNS):
                for program in times:
                    times[program].append(run(program, path))
            r, o = (statistics.median(times[p]) for p in (rust, ours))
            rate = int(megabytes) / 1000
            line = f"{kind}{' with holes' if holes else ''} {lanes} lanes: Rust {r:.3f} s ({rate / r:.2f} GB/s), ours {o:.3f} s ({rate / o:.2f} GB/s), {o / r:.2f} times the Rust's"
            for program in before:
                b = statistics.median(times[program])
                line += f"; before {b:.3f} s, {o / b:.2f} times before"
            print(line)
            os.remove(path)


if __name__ == "__main__":
    main()
