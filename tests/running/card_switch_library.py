"""The shared library of a release."""

import sys
from pathlib import Path

sys.path.insert(0, str(Path(__file__).resolve().parent.parent.parent / "python"))
import card_switch

NAME = "libcard_switch.so.1"


def of(folder):
    """The library in a folder."""
    return card_switch.Library(str(folder / NAME))
