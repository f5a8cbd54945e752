"""Where the program is: in a clone what ./cephmon builds, and in an installation the one that was installed."""
import os

TOP = os.path.dirname(os.path.dirname(os.path.realpath(__file__)))


def place() -> str:
    """The path of the program, which may not be there yet."""
    is_clone = os.path.isdir(os.path.join(TOP, 'crates'))
    return os.path.join(TOP, 'out', 'cephmon') if is_clone else os.path.join(TOP, 'cephmon')
