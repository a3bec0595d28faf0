#!/usr/bin/env python3
"""Tables and the plot of a benchmark run.

    python3 bench/report.py RESULTS.csv                the tables, as Markdown, on standard output
    python3 bench/report.py RESULTS.csv --document     the same into docs/BENCHMARKS.md, with the plot docs/benchmarks.png

The tables stand between the two marks in docs/BENCHMARKS.md. The plot wants matplotlib and is skipped without it.
"""
import csv
import os
import pathlib
import platform
import re
import sys

ROOT = pathlib.Path(__file__).resolve().parent.parent
DOCUMENT = ROOT / "docs" / "BENCHMARKS.md"
PLOT = ROOT / "docs" / "benchmarks.png"
BEGIN, END = "<!-- results: written by bench/run document -->", "<!-- end of results -->"
OURS = "Volkhidar"


def read(path):
    with open(path, newline="") as file:
        return list(csv.DictReader(file, delimiter=";"))


def ordered(rows, key):
    return list(dict.fromkeys(row[key] for row in rows))


def shown(seconds):
    for unit, size in (("s", 1), ("ms", 1e-3), ("µs", 1e-6), ("ns", 1e-9)):
        if seconds >= size:
            break
    value = seconds / size
    return f"{value:.0f} {unit}" if value >= 100 else f"{value:.1f} {unit}" if value >= 10 else f"{value:.2f} {unit}"


def cell(seconds, base):
    """A time and how many times the base's it is; a contestant may have sat out."""
    if seconds is None:
        return "not run"
    ratio = seconds / base
    return f"{shown(seconds)} ({ratio:.0f})" if ratio >= 100 else f"{shown(seconds)} ({ratio:.2g})"


def table(head, body):
    lines = ["| " + " | ".join(head) + " |", "|" + "---|" * len(head)]
    return "\n".join(lines + ["| " + " | ".join(row) + " |" for row in body])


def times(rows):
    """A table a kind of list: a line a contestant, a column a number of points."""
    for kind in ordered(rows, "kind"):
        here = [row for row in rows if row["kind"] == kind]
        sizes, seconds = ordered(here, "n"), {(r["contestant"], r["n"]): float(r["seconds"]) for r in here}
        tests = ", ".join(f"{float(next(r for r in here if r['n'] == n)['tests']):,.0f}" for n in sizes)
        base = OURS if (OURS, sizes[0]) in seconds else here[0]["contestant"]
        body = []
        for name in ordered(here, "contestant"):
            cells = [cell(seconds.get((name, n)), seconds[base, n]) for n in sizes]
            body.append([name] + cells)
        yield f"### {kind.capitalize()}\n\nTests of a point by the procedure, on average: {tests}.\n\n" + table(
            [f"time a list (times {base}'s)"] + [f"n = {int(n):,}" for n in sizes], body)


def most(rows, key, fault):
    """The largest error, which is itself worked out in doubles: a fault may be too small for them."""
    largest = max(float(r[key]) for r in rows)
    if largest < 1e-12:
        return "under 1e-12" if any(int(r[fault]) for r in rows) else "none"
    return f"{largest:.1g}"


def faults(rows):
    """A line a floating contestant and kind of list, over all numbers of points."""
    body = []
    for name in ordered([r for r in rows if r["exact"] == "0"], "contestant"):
        for kind in ordered(rows, "kind"):
            here = [r for r in rows if r["contestant"] == name and r["kind"] == kind]
            lists = sum(int(r["lists"]) for r in here)
            share = lambda key: f"{100 * sum(int(r[key]) for r in here) / lists:.1f} %"
            body.append([name, kind, f"{lists:,}"] + [share(key) for key in ("misses", "larger", "wrong_radius")]
                        + [most(here, "sticks_out", "misses"), most(here, "too_large", "larger")])
    head = ["contestant", "lists", "how many", "misses a point", "holds all, not the smallest", "another whole radius", "a point sticks out by", "radius too large by"]
    return table(head, body)


def machine():
    model = re.search(r"model name\s*: (.*)", pathlib.Path("/proc/cpuinfo").read_text())
    system = re.search(r'PRETTY_NAME="(.*)"', pathlib.Path("/etc/os-release").read_text())
    names = (model.group(1) if model else platform.machine(), f"{os.cpu_count()} cores", system.group(1) if system else platform.system())
    return ", ".join(names)


def report(rows):
    parts = [f"Machine: {machine()}."] + list(times(rows))
    return "\n\n".join(parts + ["### Faults of the floating contestants", faults(rows)])


def plot(rows):
    try:
        import matplotlib
    except ImportError:
        print("skipped: the plot; python3-matplotlib is not there", file=sys.stderr)
        return
    matplotlib.use("Agg")
    from matplotlib import pyplot

    kinds = ordered(rows, "kind")
    figure, axes = pyplot.subplots(1, len(kinds), figsize=(4 * len(kinds), 4.8), sharey=True)
    for axis, kind in zip(axes, kinds):
        for k, name in enumerate(ordered(rows, "contestant")):
            here = [r for r in rows if r["kind"] == kind and r["contestant"] == name]
            style = dict(color=f"C{k}", linewidth=2.5 if name.startswith(OURS) else 1.2, linestyle="-" if here[0]["exact"] == "1" else "--")
            axis.loglog([int(r["n"]) for r in here], [float(r["seconds"]) for r in here], marker="o", markersize=3, label=name, **style)
        axis.set_title(kind)
        axis.set_xlabel("points in the list")
        axis.grid(True, which="major", alpha=0.3)
    axes[0].set_ylabel("seconds a list")
    handles, names = axes[0].get_legend_handles_labels()
    figure.legend(handles, names, loc="lower center", ncol=4, frameon=False)
    figure.tight_layout(rect=(0, 0.18, 1, 1))
    figure.savefig(PLOT, dpi=110)


def main():
    rows = read(sys.argv[1])
    if "--document" not in sys.argv:
        print(report(rows))
        return
    before, rest = DOCUMENT.read_text().split(BEGIN)
    DOCUMENT.write_text(before + BEGIN + "\n\n" + report(rows) + "\n\n" + END + rest.split(END)[1])
    plot(rows)


main()
