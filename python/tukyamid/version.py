"""The version of Tukyamid, and what was built. Packages and documents take the version from this module alone.

>>> version_text().splitlines()[0] == f"tukyamid {VERSION}"
True
"""

import os

VERSION = "0.1.0"
BUILD = "/usr/share/tukyamid/build.json"  # The package tukyamid has it.


def version_text() -> str:
    """What `--version` says: the version, and for packages the commit and the toolchain that proved the engine."""
    import json
    top = os.path.dirname(os.path.dirname(os.path.dirname(os.path.realpath(__file__))))
    if os.path.isfile(os.path.join(top, "wot")):
        return f"tukyamid {VERSION}\nfrom the checkout at {top}\n"
    try:
        with open(BUILD, encoding="utf-8") as file:
            build = json.load(file)
        return f"tukyamid {build['version']}\ncommit {build['commit']}\nengine proved by {build['toolchain']}\n"
    except (OSError, ValueError, KeyError, TypeError):
        return f"tukyamid {VERSION}\nof no package: {BUILD} isn't there, or isn't readable\n"
