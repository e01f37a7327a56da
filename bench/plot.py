#!/usr/bin/python3
"""Draws a plot of speed by lengths as SVG on standard output, by Debian's python3-matplotlib. bench/speed.py runs
it. Standard input has, as JSON, for each title of a panel the speeds in GB/s by the names of
candidates and by lengths in bytes.

usage: bench/plot.py TEXT      TEXT is below the axes, and says what has these lengths
"""
import json
import sys

import matplotlib
from matplotlib import pyplot

# By the candidates' names: the color, the width of the line, and its dashes. People with any kind of sight can
# distinguish the colors (Okabe and Ito).
STYLES = {
    "ours: `vulfsjor`, x86-64-v4": ("#d55e00", 3, "-"),
    "ours: `vulfsjor`, x86-64-v3": ("#d55e00", 3, "--"),
    "ours: `vulfsjor`, x86-64-v2": ("#d55e00", 3, ":"),
    "blake2b/s_simd": ("#0072b2", 2, "-"),
    "libb2": ("#009e73", 2, "-"),
    "OpenSSL's EVP": ("#cc79a7", 2, "-"),
    "hashlib's C functions": ("#56b4e9", 2, ":"),
}


def short_length_text(length, _):
    """The text of a length in bytes: 64, 1 Ki, 1 Mi."""
    units = [(1 << 20, " Mi"), (1 << 10, " Ki"), (1, "")]
    return next((f"{length / unit:g}{text}" for unit, text in units if length >= unit), f"{length:g}")


def main():
    panels = json.load(sys.stdin)
    matplotlib.rcParams |= {"svg.hashsalt": "speed", "svg.fonttype": "none"}  # names stay the same, and text is text
    figure, axes = pyplot.subplots(1, len(panels), figsize=(10, 5))
    for axis, (title, speeds) in zip(axes, panels.items()):
        for name, (color, width, dashes) in STYLES.items():
            if name in speeds:
                axis.plot([int(length) for length in speeds[name]], speeds[name].values(), dashes, color=color,
                          linewidth=width, label=name.replace("`", ""))
        axis.set(title=title, xlabel=sys.argv[1], ylabel="GB/s", ylim=(0, None))
        axis.set_xscale("log", base=2)
        axis.xaxis.set_major_formatter(short_length_text)
        axis.grid(True)
    figure.legend(*axes[0].get_legend_handles_labels(), loc="lower center", ncols=3)
    figure.tight_layout(rect=(0, 0.12, 1, 1))
    figure.savefig(sys.stdout.buffer, format="svg", metadata={"Date": None})


main()
