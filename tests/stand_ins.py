#!/usr/bin/env python3
# SPDX-License-Identifier: Apache-2.0
"""A stand-in for Hadoop streaming and for Spark's `pipe`: it gives filters what these would give them, on one machine.

    stand_ins.py hadoop --mapper cat --combiner C --reducer R --reducers 4 --output FOLDER LINES
    stand_ins.py spark --partitions 7 --pipe C --repartition 1 --pipe C LINES

It is not Hadoop and not Spark, and shows nothing of them but what their documents promise to a filter:

- Streaming cuts the input into splits, and gives the lines of each to a mapper. What that prints is a key up to the first
  tab, and a value after it; without a tab the line is the key, and the value is empty. Pairs go to a reducer by a hash
  of the key, sorted by key. The combiner may get the pairs of a split for a reducer, any number of times or never; here
  splits take turns with none, one and two. Combiner and reducer read lines of key, tab and value, the tab always. What
  the reducer prints is written in this form too, a file for each reducer.
- `pipe` gives the lines of each partition to a process of their own, and the lines that it prints are a partition again.

Commands are words with spaces between; no shell reads them.
"""
import argparse
import concurrent.futures
import os
import pathlib
import subprocess
import sys
import zlib


def filtered(command, lines):
    """The lines that a command prints for lines."""
    text = b"".join(line + b"\n" for line in lines)
    done = subprocess.run(command.split(" "), input=text, stdout=subprocess.PIPE)
    if done.returncode != 0:
        sys.exit("`%s` ended with status %d" % (command, done.returncode))
    return done.stdout.split(b"\n")[:-1]


def cut(lines, count):
    """So many parts of lines, in their order."""
    size = -(-len(lines) // count)
    return [lines[n * size:(n + 1) * size] for n in range(count)]


# ---- Hadoop streaming


def pair_of(line):
    key, _, value = line.partition(b"\t")
    return key, value


def sorted_pairs(lines):
    """Lines of sorted pairs, each with its tab."""
    return [key + b"\t" + value for key, value in sorted(map(pair_of, lines), key=lambda pair: pair[0])]


def mapped(arguments, number, lines):
    """What a mapper leaves for each reducer, combined so many times."""
    parts = [[] for _ in range(arguments.reducers)]
    for line in filtered(arguments.mapper, lines):
        parts[zlib.crc32(pair_of(line)[0]) % arguments.reducers].append(line)
    parts = [sorted_pairs(part) for part in parts]
    for _ in range(number % 3 if arguments.combiner else 0):
        parts = [sorted_pairs(filtered(arguments.combiner, part)) if part else part for part in parts]
    return parts


def hadoop(arguments, lines):
    with concurrent.futures.ThreadPoolExecutor(os.cpu_count()) as pool:
        splits = cut(lines, arguments.splits)
        outputs = list(pool.map(lambda split: mapped(arguments, *split), enumerate(splits)))
    folder = pathlib.Path(arguments.output)
    folder.mkdir()
    for number in range(arguments.reducers):
        pairs = sorted_pairs(line for parts in outputs for line in parts[number])
        with open(folder / ("part-%05d" % number), "wb") as file:
            for line in filtered(arguments.reducer, pairs):
                file.write(b"\t".join(pair_of(line)) + b"\n")


# ---- Spark


def spark(arguments, lines):
    partitions = cut(lines, arguments.partitions)
    with concurrent.futures.ThreadPoolExecutor(os.cpu_count()) as pool:
        for name, value in arguments.steps:
            if name == "pipe":
                partitions = list(pool.map(lambda part: filtered(value, part), partitions))
            else:
                partitions = cut([line for part in partitions for line in part], int(value))
    for line in (line for part in partitions for line in part):
        sys.stdout.buffer.write(line + b"\n")


class Step(argparse.Action):
    """Keeps the order of the options of Spark."""

    def __call__(self, parser, namespace, value, option=None):
        namespace.steps = (getattr(namespace, "steps", None) or []) + [(option.lstrip("-"), value)]


def main():
    parser = argparse.ArgumentParser(description="A stand-in for Hadoop streaming and for Spark's pipe.")
    engines = parser.add_subparsers(dest="engine", required=True)
    streaming = engines.add_parser("hadoop")
    streaming.add_argument("--mapper", required=True)
    streaming.add_argument("--combiner")
    streaming.add_argument("--reducer", required=True)
    streaming.add_argument("--reducers", type=int, default=1)
    streaming.add_argument("--splits", type=int, default=7)
    streaming.add_argument("--output", required=True)
    piped = engines.add_parser("spark")
    piped.add_argument("--partitions", type=int, default=7)
    piped.add_argument("--pipe", action=Step, required=True)
    piped.add_argument("--repartition", action=Step)
    for engine in (streaming, piped):
        engine.add_argument("lines")
    arguments = parser.parse_args()
    lines = pathlib.Path(arguments.lines).read_bytes().split(b"\n")
    lines = lines[:-1] if lines[-1] == b"" else lines
    (hadoop if arguments.engine == "hadoop" else spark)(arguments, lines)


if __name__ == "__main__":
    main()
