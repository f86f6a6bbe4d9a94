# SPDX-License-Identifier: Apache-2.0
"""What the measurements share: the baseline, plans in files, and runs with what they take."""
import datetime
import os
import pathlib
import re
import resource
import shutil
import statistics
import subprocess
import sys
import tempfile

ROOT = pathlib.Path(__file__).resolve().parent.parent


def built_baseline(folder):
    """The baseline, compiled into a folder."""
    program = pathlib.Path(folder) / "baseline"
    subprocess.run(["cc", "-O2", "-std=c11", "-D_POSIX_C_SOURCE=200809L", ROOT / "bench" / "baseline.c", "-o", program], check=True)
    return program


def plan_file():
    """A file for the text of a plan, which is gone once it is closed."""
    return tempfile.NamedTemporaryFile("w", suffix=".plan")


# ---- runs


def run(program, path):
    """What a program prints for a plan on standard input, and the seconds of processor time that it took."""
    with open(path, "rb") as plan, subprocess.Popen([program], stdin=plan, stdout=subprocess.PIPE) as process:
        printed = process.stdout.read()
        _, status, usage = os.wait4(process.pid, 0)
        process.returncode = os.waitstatus_to_exitcode(status)
    if process.returncode != 0:
        sys.exit("%s ended with status %d" % (program, process.returncode))
    return printed, usage.ru_utime + usage.ru_stime


def check_printed(name, printed, image):
    """Ends with a message unless the image was printed."""
    if printed != image.hex().encode("ascii") + b"\n":
        sys.exit("%s: printed %d bytes, which are not those of the model" % (name, len(printed)))


def medians(pairs):
    """The medians of the first and second times of pairs, and of the ratios in each."""
    firsts, seconds = zip(*pairs)
    return statistics.median(firsts), statistics.median(seconds), statistics.median(a / b for a, b in pairs)


def instructions(program, path):
    """How many instructions a program executes for a plan, as callgrind counts them."""
    command = ["valgrind", "--tool=callgrind", "--callgrind-out-file=/dev/null", program]
    with open(path, "rb") as plan:
        done = subprocess.run(command, stdin=plan, stdout=subprocess.DEVNULL, stderr=subprocess.PIPE, text=True, check=True)
    return int(re.search(r"Collected : (\d+)", done.stderr)[1])


def has_callgrind():
    return shutil.which("valgrind") is not None


def carries_out(program, path, kilobytes):
    """Whether so much address space is enough for a plan."""
    size = 1024 * kilobytes
    with open(path, "rb") as plan:
        done = subprocess.run([program], stdin=plan, stdout=subprocess.DEVNULL, stderr=subprocess.DEVNULL,
                              preexec_fn=lambda: resource.setrlimit(resource.RLIMIT_AS, (size, size)))
    return done.returncode == 0


def least_space(program, path):
    """The least kilobytes of address space that are enough for a plan, to within 64."""
    refused, enough = 0, 1 << 21
    while enough - refused > 64:
        middle = (refused + enough) // 2
        if carries_out(program, path, middle):
            enough = middle
        else:
            refused = middle
    return enough


def machine():
    """The processor's model and the date."""
    said = subprocess.run(["lscpu"], stdout=subprocess.PIPE, text=True, check=True).stdout
    model = re.search(r"Model name:\s*(.*)", said)
    return "%s, %s" % (model[1].strip() if model else "unknown processor", datetime.date.today())
