#!/usr/bin/env python3
# SPDX-License-Identifier: Apache-2.0
"""Runs the commands of docs/OPERATING.md as they stand there, on 3,000 files of sketches, and compares what they print.

    scale.py [FILES]

Hadoop and Spark are not run: their lines are taken apart, and tests/stand_ins.py gives the filters what these would. GNU
parallel is left out where it isn't installed. Needs the programs hll_merge and hll_estimator_fields, of which HLL_MERGE and HLL_WORDS
may name other copies. The last line is 'N passed, M failed'.
"""
import os
import pathlib
import random
import re
import shlex
import shutil
import subprocess
import sys
import tempfile

sys.dont_write_bytecode = True
ROOT = pathlib.Path(__file__).resolve().parent.parent
sys.path.insert(0, str(ROOT / "bindings" / "postgresql" / "tests"))
from built import built_filter, built_program  # noqa: E402
from images import image_of, image_of_coupons, random_coupons, random_registers  # noqa: E402

STAND_IN = str(ROOT / "tests" / "stand_ins.py")
results = []


def report(name, is_right):
    results.append(is_right)
    print("%s: %s" % (name, "the same" if is_right else "NOT THE SAME"), flush=True)


# ---- what is merged


def random_image(numbers, number):
    """Lists, sets and registers in turn, of five sizes and each width; registers are as many as the bound, or more."""
    width = numbers.choice([4, 6, 8])
    if number % 3 == 2:
        lg_k = [12, 13, 12, 14][number % 4]
        return image_of(lg_k, width, random_registers(numbers, lg_k, numbers.choice([0.1, 1, 8])))
    lg_k = [10, 11, 12, 14][number % 4]
    count = numbers.randrange(8) if number % 3 else numbers.randrange(8, 60)
    return image_of_coupons(lg_k, width, random_coupons(numbers, count))


def lay_out(folder, count):
    """The sketches as files and as lines, the examples, and the programs beside them."""
    numbers = random.Random(9001)
    (folder / "sketches").mkdir()
    with open(folder / "lines", "w") as lines:
        for number in range(count):
            image = random_image(numbers, number)
            (folder / "sketches" / ("%05d.bin" % number)).write_bytes(image)
            lines.write("image %s\n" % image.hex())
    shutil.copytree(ROOT / "examples", folder / "examples")
    (folder / "bin").mkdir()
    (folder / "bin" / "hll_merge").symlink_to(os.path.abspath(os.environ.get("HLL_MERGE") or built_program()))
    (folder / "bin" / "hll_estimator_fields").symlink_to(os.path.abspath(os.environ.get("HLL_WORDS") or built_filter()))


# ---- the page


def blocks_of(page):
    """The indented blocks, without the indent."""
    return [re.sub(r"^    ", "", block, flags=re.M) for block in re.findall(r"(?:^    .*\n)+", page, re.M)]


def one_block(blocks, start):
    return next(block for block in blocks if block.startswith(start)).rstrip("\n")


def run(folder, command):
    """What a shell prints for a command of the page; `bash`, as the page's pipes are to fail as a whole."""
    environment = dict(os.environ, PATH=os.pathsep.join([str(folder), str(folder / "examples"), os.environ["PATH"]]))
    done = subprocess.run(["bash", "-c", command], cwd=folder, env=environment, stdout=subprocess.PIPE)
    return done.stdout if done.returncode == 0 else b"status %d" % done.returncode


def run_hadoop(folder, line, blocks, wanted):
    """The line of Hadoop by the stand-in, with one reducer as it says, and with five whose answers the page joins."""
    words = shlex.split(line.replace("\\\n", " "))
    options = dict(zip(words[3::2], words[4::2]))
    for reducers in (options["-numReduceTasks"], "5"):
        shutil.rmtree(folder / "merged", ignore_errors=True)
        filters = [word for name in ("mapper", "combiner", "reducer") for word in ("--" + name, options["-" + name])]
        command = [STAND_IN, "hadoop"] + filters + ["--reducers", reducers, "--output", options["-output"], options["-input"]]
        run(folder, shlex.join(command))
        answer = run(folder, one_block(blocks, "cat merged/part-"))
        report("Hadoop's lines by the stand-in, %s reducers" % reducers, answer == wanted)


def run_spark(folder, line, wanted):
    steps = re.findall(r"\.(pipe|repartition)\(\"?(.*?)\"?\)", line)
    command = [STAND_IN, "spark"] + [word for name, value in steps for word in ("--" + name, value)] + ["lines"]
    report("Spark's line by the stand-in, %d steps" % len(steps), run(folder, shlex.join(command)) == wanted)


def main():
    count = int(sys.argv[1]) if len(sys.argv) > 1 else 3000
    blocks = blocks_of((ROOT / "docs" / "OPERATING.md").read_text())
    with tempfile.TemporaryDirectory(prefix="hll-") as name:
        folder = pathlib.Path(name)
        lay_out(folder, count)
        answer = run(folder, "{ cat lines; echo 'union %d 12 8'; } | bin/hll_merge" % count)
        wanted = b"image " + answer
        assert answer.startswith(b"0a01070c"), "registers of the bound"
        records = one_block(blocks, "#!/bin/sh")
        (folder / "merge_records.sh").write_text(records + "\n")
        (folder / "merge_records.sh").chmod(0o755)
        run(folder, one_block(blocks, "examples/merge_folder.sh"))
        with_words = run(folder, "bin/hll_estimator_fields < <(bin/hll_merge < <(cat lines; echo 'union %d 12 8'))" % count)
        report("merge_folder.sh", (folder / "merged.bin").read_bytes().hex().encode() + b"\n" == with_words)
        report("two sketches at a time", run(folder, one_block(blocks, "awk ")) == answer)
        if shutil.which("parallel"):
            line = one_block(blocks, "parallel ")
            report("GNU parallel", run(folder, line) == wanted)
            report("GNU parallel in small blocks", run(folder, line.replace("10M", "100k")) == wanted)
        else:
            print("skipped: GNU parallel, as it is not here")
        run_hadoop(folder, one_block(blocks, "hadoop "), blocks, wanted)
        run_spark(folder, one_block(blocks, "lines.pipe"), wanted)
    print("%d passed, %d failed" % (sum(results), len(results) - sum(results)))
    return 0 if all(results) else 1


if __name__ == "__main__":
    sys.exit(main())
