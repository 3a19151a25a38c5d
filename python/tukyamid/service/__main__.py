"""`python -m tukyamid.service` is the command `tukyamid-server`."""

import sys

from .server_command import main

if __name__ == "__main__":
    sys.exit(main())
