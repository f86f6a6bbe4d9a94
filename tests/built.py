# SPDX-License-Identifier: Apache-2.0
"""The programs in bin/, built if need be."""
import pathlib
import subprocess

ROOT = pathlib.Path(__file__).resolve().parent.parent


def built(name):
    """The program of this name in bin/, up to date."""
    subprocess.run(["make", "-s", "-C", ROOT / "programs"], stdout=subprocess.DEVNULL, check=True)
    return ROOT / "bin" / name


def built_program():
    return built("hll_merge")


def built_filter():
    return built("hll_estimator_fields")
