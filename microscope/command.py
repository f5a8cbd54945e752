"""What the tools of this folder share as commands: their help, which is the text of the script, and how they end."""
from __future__ import annotations

import argparse
import os
import sys
from typing import Callable


def parser(text: str) -> argparse.ArgumentParser:
    """A parser of arguments whose help is this text. It has a first paragraph, and then its usage."""
    first, rest = text.split('usage: ')
    usage, rest = rest.split('\n\n', 1)
    return argparse.ArgumentParser(usage=usage, description=first + rest, formatter_class=argparse.RawDescriptionHelpFormatter)


def end(main: Callable[[], int]):
    """Ends with the status of `main`, or quietly with 1 if the reader of standard output has gone."""
    try:
        status = main()
        sys.stdout.flush()
    except BrokenPipeError:
        os.dup2(os.open(os.devnull, os.O_WRONLY), sys.stdout.fileno())
        status = 1
    except KeyboardInterrupt:
        status = 130
    sys.exit(status)
