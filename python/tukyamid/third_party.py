"""Libraries that aren't Python's own. The command starts without them, so what needs one says so."""

import sys


def find_libraries() -> None:
    """Has them found from now on, as in an interpreter that was started without `-S`."""
    if sys.flags.no_site and "site" not in sys.modules:
        import site
        site.main()
