# SPDX-License-Identifier: Apache-2.0
"""The command ``hll``, also as ``python3 -m hll_sketches``."""
import sys

from ._signals import end_at_once


def main() -> int:
    """Runs the command, and returns its status."""
    if sys.platform == "win32":
        sys.exit("hll: this command is for Linux and macOS; on Windows use hll_sketches from Python")
    end_at_once()
    from . import cli

    return cli.main()


if __name__ == "__main__":
    sys.exit(main())
