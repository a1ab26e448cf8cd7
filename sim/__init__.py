"""A bench in simulated time for the transmit path: scenarios, the machine in the process or on a pipe, and models to compare it with.

`run` makes one run of a scenario, and `repeat` many. In a checkout the package is `sim`; pip installs it as `wfpath.sim`, which needs
Python 3.11 or newer. docs/SIM.md describes it.
"""
import sys

if sys.version_info < (3, 11):
    raise ImportError("the bench wfpath.sim needs Python 3.11 or newer")

from .study import repeat, run

__all__ = ["repeat", "run"]
