"""Draws docs/notches.png: a made-up vibration at one frequency, before and after three notches in a row, by the program `calls`.

Run from the repository's top, with NumPy and matplotlib (Debian: python3-numpy, python3-matplotlib), after `oracle/ours calls`:
    /usr/bin/python3 examples/draw_notches.py
"""

import subprocess

import matplotlib

matplotlib.use("Agg")
import matplotlib.pyplot as plt
import numpy as np

DT, ROWS = 0.001, 2000
VIBRATION = 120.0  # Hz
CENTRES, BANDWIDTH = [116.0, 120.0, 124.0], 8.0
LONGEST_RUN = 64  # samples in one line of `calls`


def words(numbers):
    return "".join(" %08x" % bits for bits in np.asarray(numbers, dtype="<f4").view("<u4"))


def tangent(centre):
    """The t of a notch, which its caller works out: f32's tangent of fc·2·pi·dt/2, in f32 and in that order, as the Rust does."""
    f = np.float32
    return np.tan(f(centre) * f(2) * f(np.pi) * f(DT) / f(2))


def notched(samples, most):
    """The samples after the three notches, handed over in runs of so many at most."""
    settings = [n for centre in CENTRES for n in (centre, BANDWIDTH, DT, tangent(centre))]
    runs = [samples[i : i + most] for i in range(0, len(samples), most)]
    lines = ["notches.new" + words(settings)] + ["notches.run %08x" % len(run) + words(run) for run in runs]
    text = subprocess.run(["build/bin/calls"], input="\n".join(lines), check=True, capture_output=True, text=True).stdout
    bits = [int(word, 16) for line in text.splitlines()[1:] for word in line.split()[1:]]
    return np.array(bits, dtype="<u4").view("<f4")


time = np.arange(ROWS) * DT
turning = 0.5 * np.sin(2 * np.pi * 1.5 * time) + 0.2 * np.sin(2 * np.pi * 7 * time)
shaking = 0.3 * np.sin(2 * np.pi * VIBRATION * time)
noise = np.random.default_rng(1).normal(0, 0.01, ROWS)
before = (turning + shaking + noise).astype("<f4")
after = notched(before, LONGEST_RUN)
assert (after.view("<u4") == notched(before, 7).view("<u4")).all(), "a cut could be seen"


def strength(samples):
    """How strong each frequency is, of the second half, when the notches have settled."""
    half = samples[ROWS // 2 :]
    window = np.hanning(len(half))
    return np.abs(np.fft.rfft(half * window)) * 2 / window.sum()


figure, (top, bottom) = plt.subplots(2, 1, figsize=(9, 5.5), constrained_layout=True)
shown = slice(0, 500)
top.plot(time[shown], before[shown], "tab:orange", linewidth=0.8, label="measured: the turn, a vibration of 120 Hz, noise")
top.plot(time[shown], after[shown], "tab:blue", linewidth=1.4, label="after three notches at 116, 120 and 124 Hz, each 8 Hz wide")
top.set_xlabel("seconds")
top.set_ylabel("rate")
top.legend(loc="lower left", fontsize=8)
frequency = np.fft.rfftfreq(ROWS - ROWS // 2, DT)
bottom.semilogy(frequency, strength(before), "tab:orange", linewidth=0.8, label="measured")
bottom.semilogy(frequency, strength(after), "tab:blue", linewidth=1.2, label="after the notches")
bottom.set_xlim(0, 250)
bottom.set_ylim(1e-6, 1)
bottom.set_xlabel("Hz")
bottom.set_ylabel("how strong")
bottom.legend(loc="upper right", fontsize=8)
figure.savefig("docs/notches.png", dpi=110, metadata={"Software": None})
at = np.argmin(np.abs(frequency - VIBRATION))
print("the vibration at 120 Hz: %.3f before, %.6f after" % (strength(before)[at], strength(after)[at]))
