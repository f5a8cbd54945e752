"""The parser of each tool's arguments."""
from __future__ import annotations

import argparse
import os
import sys
from typing import NoReturn


class Parser(argparse.ArgumentParser):
    """A parser whose faults begin as the other lines of its tool do, with the name of the tool."""

    def error(self, message: str) -> NoReturn:
        self.print_usage(sys.stderr)
        tool = os.path.basename(sys.argv[0]).removeprefix('cephmon-').removesuffix('.py')
        self.exit(2, f'{tool}: {message}\n')
