"""Draws docs/replay.png: a made-up flight of two aircraft, replayed by ./replay, and the first of them replayed alone.

Run from the repository's top, with NumPy and matplotlib (Debian: python3-numpy, python3-matplotlib):
    /usr/bin/python3 examples/draw.py
"""

import os
import subprocess
import tempfile

import matplotlib

matplotlib.use("Agg")
import matplotlib.pyplot as plt
import numpy as np

DT, ROWS = 0.004, 500
SETTINGS = np.array([[0.5, 2.0, 0.01, 0.005, DT], [0.9, 1.0, 0.0, 0.02, DT]], dtype="<f4")


def flight(seed, steps):
    """A rate that is asked for in steps, and one that follows it with a lag and noise: reference, measurement, prediction."""
    noise = np.random.default_rng(seed).normal(0, 0.01, ROWS)
    wanted = np.repeat(steps, ROWS // len(steps))
    turning = np.zeros(ROWS)
    for i in range(1, ROWS):
        turning[i] = turning[i - 1] + 0.03 * (wanted[i - 1] - turning[i - 1])
    return np.stack([wanted, turning + noise, wanted], axis=1)


def replay(settings, cells):
    """The results of ./replay as an array, a column a lane."""
    with tempfile.TemporaryDirectory() as folder:
        files = [os.path.join(folder, name) for name in ("settings.npy", "trace.npy")]
        np.save(files[0], settings)
        np.save(files[1], cells.astype("<f4"))
        text = subprocess.run(["./replay", *files], check=True, capture_output=True, text=True).stdout
    bits = [[int(word, 16) for word in line.split()] for line in text.splitlines()]
    return np.array(bits, dtype="<u4").view("<f4")


one = flight(1, [0.0, 0.6, -0.4, 0.2, 0.0])
two = flight(2, [0.3, -0.7, 0.1, 0.7, -0.2])
both = replay(SETTINGS, np.hstack([one, two]))
alone = replay(SETTINGS[:1], one)
assert (both[:, 0].view("<u4") == alone[:, 0].view("<u4")).all(), "a lane's numbers moved"

time = np.arange(ROWS) * DT
figure, (top, bottom) = plt.subplots(2, 1, sharex=True, figsize=(9, 5), constrained_layout=True)
for cells, colour, name in ((one, "tab:blue", "lane 0"), (two, "tab:orange", "lane 1")):
    top.plot(time, cells[:, 1], colour, linewidth=0.8, label=name + ", measured")
    top.plot(time, cells[:, 0], colour, linewidth=1.2, linestyle="--", label=name + ", wanted")
top.set_ylabel("rate")
top.set_ylim(-1.1, 0.8)
top.legend(loc="lower right", fontsize=8, ncol=2)
bottom.plot(time, both[:, 0], "tab:blue", linewidth=3, alpha=0.35, label="lane 0, replayed beside lane 1")
bottom.plot(time, alone[:, 0], "black", linewidth=0.7, label="lane 0, replayed alone: the same bits")
bottom.plot(time, both[:, 1], "tab:orange", linewidth=0.8, label="lane 1")
bottom.set_ylabel("controller's result")
bottom.set_xlabel("seconds")
bottom.legend(loc="upper right", fontsize=8)
figure.savefig("docs/replay.png", dpi=110, metadata={"Software": None})
