"""Where the engine's program is. What starts it for somebody else needs nothing else of a client."""

from __future__ import annotations

import os

from ..protocol.refusals import EngineMissing

_NAME = "tukyamid-engine"
_LIBEXEC = f"/usr/libexec/{_NAME}"


def find_program() -> list[str]:
    """The words that start the engine. The environment's TUKYAMID_ENGINE names it; else it is the program that this
    repository has built, or `tukyamid-engine` on the PATH or in /usr/libexec. Raises EngineMissing if there is none:
    nothing is built here."""
    named = os.environ.get("TUKYAMID_ENGINE")
    if named:
        return [named]
    top = os.path.realpath(__file__).rsplit("/", 4)[0]
    for program in f"{top}/crates/wot_cli/out/wot_cli", *_on_path(), _LIBEXEC:
        if os.path.isfile(program) and os.access(program, os.X_OK):
            return [program]
    if os.path.isfile(f"{top}/wot"):
        raise EngineMissing(f"the engine isn't built; build it with: {top}/wot run < /dev/null")
    raise EngineMissing("the engine isn't installed: install the package tukyamid, or name it in TUKYAMID_ENGINE")


def _on_path() -> list[str]:
    """Where it may be on the PATH. `shutil.which` would find it, but importing that takes as long as a question."""
    return [f"{folder}/{_NAME}" for folder in os.environ.get("PATH", os.defpath).split(os.pathsep) if folder]
