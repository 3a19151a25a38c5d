#!/usr/bin/env python3
"""The service, which reads and verifies only a few certificates at a time: as many as PARTS says. Every file of packets
is large to it."""

import os
import sys
from pathlib import Path

sys.path.insert(0, str(Path(__file__).resolve().parents[3] / "python"))

from tukyamid.service.keyring_files import certificate_cuts, large_keyrings, verified_parts  # noqa: E402
from tukyamid.service.server_command import main  # noqa: E402

verified_parts._MOST_CERTIFICATES = int(os.environ["PARTS"])
certificate_cuts.piece_at.__defaults__ = int(os.environ["PARTS"]), 1 << 20
large_keyrings._LARGE = 0
sys.exit(main())
