#!/usr/bin/env python3
"""Several runs of the benchmarks as rows of the tables of docs/BENCHMARKS.md: of each number the median of the runs, and of a
ratio, or of the time for a part of the work, the least and the greatest too.

    bench/summary.py OUTPUT...
"""
import re
import statistics
import sys

NUMBER = r"([\d.]+)"
GOAL = rf"(?:goal {NUMBER} \w+)?(?:, limit {NUMBER} \w+)?"
PAIR = re.compile(rf"^(\S.{{57}}) +{NUMBER} +{NUMBER} +{NUMBER}  {NUMBER} to {NUMBER} *{GOAL}$")
LONE = re.compile(rf"^(\S.{{57}}) +{NUMBER}   middle half {NUMBER} to {NUMBER}; {NUMBER} a (.*)$")


def time(values):
    """Nanoseconds as a person reads them."""
    value = statistics.median(values)
    unit = next((unit for unit in ((1e6, "ms"), (1e3, "µs")) if value >= unit[0]), (1, "ns"))
    return f"{value / unit[0]:.3g} {unit[1]}"


def spread(values, unit=""):
    return f"{statistics.median(values):.2f}{unit} | {min(values):.2f} to {max(values):.2f}"


def goal(ratio, most, limit):
    met = lambda bound: "met" if ratio <= float(bound) else "missed"
    parts = [(name, bound) for name, bound in (("goal", most), ("limit", limit)) if bound]
    return ", ".join(f"{name} {bound}: {met(bound)}" for name, bound in parts)


def line(runs):
    """The row of one measurement, from its line in each run."""
    pairs = [PAIR.match(run) for run in runs]
    if all(pairs):
        first, second, ratio = ([float(pair[group]) for pair in pairs] for group in (2, 3, 4))
        verdict = goal(statistics.median(ratio), pairs[0][7], pairs[0][8])
        return f"| {pairs[0][1].strip()} | {time(first)} | {time(second)} | {spread(ratio)} | {verdict} |"
    lones = [LONE.match(run) for run in runs]
    if all(lones):
        whole, each = ([float(lone[group]) for lone in lones] for group in (2, 5))
        return f"| {lones[0][1].strip()} | {time(whole)} | {spread(each, ' ns a ' + lones[0][6])} |"
    return ""


def main(files):
    runs = [open(file).read().splitlines() for file in files]
    print("\n".join(line(lines) for lines in zip(*runs)))


main(sys.argv[1:])
