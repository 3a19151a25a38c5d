"""Python processes of this package's own. They find modules in the package and where Python's own are, and never in the
directory in which a command is run: anybody may have written what is there."""

import os
import sys

_PACKAGE = os.path.dirname(os.path.dirname(os.path.realpath(__file__)))


def words_of(module: str) -> list[str]:
    """The words that run a module of this package. `-P` leaves out the directory in which they are run."""
    return [sys.executable, "-P", "-m", f"tukyamid.{module}"]


def environment() -> dict[str, str]:
    """This process's environment, by which the module is found. An empty part of PYTHONPATH, as in `:/opt/lib`, would
    be the directory in which they are run, so only absolute paths are kept of it."""
    others = os.environ.get("PYTHONPATH", "").split(os.pathsep)
    return {**os.environ, "PYTHONPATH": os.pathsep.join([_PACKAGE, *filter(os.path.isabs, others)])}
