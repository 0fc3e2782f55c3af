#!/usr/bin/env python3
"""Reads the text of /metrics, which must be as OpenMetrics 1.0 has it, and tells whether each metric that a Grafana dashboard names is in
it.

Usage: metrics.py DASHBOARD [SCRAPE]     SCRAPE: a URL, or a file; none: the metrics that crates/metrics_text names
"""
import json
import pathlib
import re
import sys
import urllib.request

COLUMNS = pathlib.Path(__file__).resolve().parents[2] / "crates/metrics_text/src/columns.rt"
SUFFIXES = {"gauge": "", "counter": "_total", "info": "_info"}
ABOUT = re.compile(r"# (TYPE|UNIT|HELP) ([a-z][a-z0-9_]*) (\S.*)")
SAMPLE = re.compile(r'([a-z][a-z0-9_]*)(?:\{([a-z_]+="(?:[^"\\\n]|\\[\\"n])*"(?:,[a-z_]+="(?:[^"\\\n]|\\[\\"n])*")*)\})? (\d+(?:\.\d+)?)')
LABEL = re.compile(r'([a-z_]+)="((?:[^"\\\n]|\\[\\"n])*)"')


def value_of(text):
    """A label's value, without the escapes."""
    return re.sub(r"\\(.)", lambda it: "\n" if it[1] == "n" else it[1], text)


def samples(text):
    """The samples of a scrape by name and labels. A ValueError where it isn't OpenMetrics' text."""
    lines = text.split("\n")
    if lines[-2:] != ["# EOF", ""]:
        raise ValueError("it doesn't end in # EOF")
    found, families, about = {}, set(), []
    name = kind = None
    for line in lines[:-2]:
        told, sample = ABOUT.fullmatch(line), SAMPLE.fullmatch(line)
        if told and told[1] == "TYPE":
            if told[2] in families or told[3] not in SUFFIXES:
                raise ValueError(f"a family told of twice, or of no type: {line}")
            name, kind, about = told[2], told[3], ["TYPE"]
            families.add(name)
        elif told:
            if told[2] != name or about + [told[1]] not in (["TYPE", "UNIT"], ["TYPE", "HELP"], ["TYPE", "UNIT", "HELP"]):
                raise ValueError(f"out of its order: {line}")
            if told[1] == "UNIT" and not name.endswith("_" + told[3]):
                raise ValueError(f"a unit that the name doesn't end in: {line}")
            about.append(told[1])
        elif sample:
            if name is None or sample[1] != name + SUFFIXES[kind] or "HELP" not in about:
                raise ValueError(f"no sample of {name}: {line}")
            labels = tuple((it[1], value_of(it[2])) for it in LABEL.finditer(sample[2] or ""))
            if (sample[1], labels) in found:
                raise ValueError(f"told twice: {line}")
            found[sample[1], labels] = sample[3]
        else:
            raise ValueError(f"not a line of OpenMetrics: {line}")
    return found


def names_of(text):
    """The names of a scrape's samples."""
    return {name for name, _ in samples(text)}


def told():
    """The names of all samples that there may be, from the columns of the tables."""
    return {name + SUFFIXES[kind.lower()] for name, kind in re.findall(r'name: "(\w+)",\s+kind: Kind::(\w+),', COLUMNS.read_text())}


def queries(part):
    """What a part of a dashboard asks of Prometheus."""
    if isinstance(part, dict):
        for key, value in part.items():
            if key in ("expr", "definition") and isinstance(value, str):
                yield value
            else:
                yield from queries(value)
    elif isinstance(part, list):
        for it in part:
            yield from queries(it)


def named(dashboard):
    """The metrics that a dashboard names."""
    return {name for query in queries(json.loads(pathlib.Path(dashboard).read_text()))
            for name in re.findall(r"\b(?:pgbouncer|pgsess)_[a-z_]+", query)}


def read(place):
    if "://" in place:
        with urllib.request.urlopen(place, timeout=10) as answer:
            return answer.read().decode()
    return pathlib.Path(place).read_text()


def main(dashboard, scrape=None):
    known = names_of(read(scrape)) if scrape else told()
    wanted = named(dashboard)
    missing = sorted(wanted - known)
    for name in missing:
        print(f"metrics: {dashboard} names {name}, which isn't there")
    print(f"metrics: {len(wanted) - len(missing)} of {len(wanted)} metrics of the dashboard are among {len(known)}")
    return 1 if missing or not wanted else 0


if __name__ == "__main__":
    sys.exit(main(*sys.argv[1:]))
