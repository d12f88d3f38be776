"""Writes the example arrays with NumPy: two lanes, six rows, in thousandths; the same trace with holes; and one flight through four lanes."""

import numpy as np

# kp, ki, kd, tau, dt for each lane
settings = np.array([[0.5, 2.0, 0.01, 0.005, 0.01], [0.8, 1.0, 0.0, 0.02, 0.01]], dtype="<f4")

# reference, measurement, prediction for each lane
wanted, turning = [0.0, 0.25, 0.5, 0.5, 0.5, 0.5], [0.0, 0.05, 0.2, 0.4, 0.52, 0.5]
rows = [[w, t, w, -w, -t, -w] for w, t in zip(wanted, turning)]
trace = np.round(np.array(rows) * 1000).astype("<i2")

np.save("examples/settings.npy", settings)
np.save("examples/trace.npy", trace)

# the same flight, but that in the third row the recorder had no sample of lane 0's measurement and none of lane 1's reference
trace[2, 1] = trace[2, 3] = -32768
np.save("examples/holes.npy", trace)

# one flight through four lanes that differ in tau and dt alone: filtered, tau = 0, tau = dt = 0, tau = -dt
times = [[0.005, 0.01], [0.0, 0.01], [0.0, 0.0], [-0.01, 0.01]]
np.save("examples/low_passes.npy", np.array([[0.5, 2.0, 0.01] + pair for pair in times], dtype="<f4"))
np.save("examples/four_lanes.npy", np.round(np.array([[w, t, w] * 4 for w, t in zip(wanted, turning)]) * 1000).astype("<i2"))
