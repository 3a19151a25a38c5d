"""Starts the installed service by hand, asks it, and ends it: by_hand.py [host]

With the word `host` it runs the command of the host's unit, as the user that the package made; else a user's service.
"""

import os
import pwd
import re
import shlex
import shutil
import signal
import subprocess
import sys
import time
from pathlib import Path

from tukyamid import connect

EXAMPLE = Path("/usr/share/doc/tukyamid/examples/quickstart.wot")
CAROL = "2cd994559f1ee81db447c52f1ff5ce7837d85afd"
UNITS = [Path("/lib/systemd/system"), Path("/usr/lib/systemd/system")]


def of_the_host():
    """The words of the host's unit, its user, and the socket it is given."""
    unit = next(file for folder in UNITS for file in folder.glob("tukyamid.service"))
    words = shlex.split(re.search(r"^ExecStart=(.*)$", unit.read_text(), re.M).group(1))
    place = pwd.getpwnam("tukyamid")
    for folder in Path("/var/lib/tukyamid"), Path("/run/tukyamid"):
        folder.mkdir(exist_ok=True)
        os.chown(folder, place.pw_uid, place.pw_gid)
    environment = {"PATH": "/usr/bin:/bin", "HOME": "/var/lib/tukyamid"}
    words = [word.replace("%S", "/var/lib") for word in words]
    return words, {"user": place.pw_uid, "group": place.pw_gid, "extra_groups": [], "env": environment}


def ask(socket, user):
    """Gives the example's lines to the service at a socket, which has to be this user's, and asks about Carol."""
    for _ in range(600):
        if socket.exists():
            break
        time.sleep(0.1)
    lines = EXAMPLE.read_bytes().splitlines()
    opened = 1 + max(at for at, line in enumerate(lines[:40]) if line.startswith(b"view me root"))
    with connect(socket, user=user) as client:
        print("refused", client.feed(lines[:opened]))
        print("amount", client.ask("me", CAROL, 120, "Carol <carol@example.org>").amount)


def main():
    is_host = sys.argv[1:] == ["host"]
    socket = Path("/run/tukyamid/by-hand") if is_host else Path(os.environ["XDG_RUNTIME_DIR"]) / "by-hand"
    words, settings = of_the_host() if is_host else (["/usr/bin/tukyamid-server", "serve"], {})
    with subprocess.Popen([*words, "--socket", str(socket)], **settings) as service:
        try:
            ask(socket, settings.get("user", os.getuid()))
        finally:
            service.send_signal(signal.SIGTERM)
            print("status", service.wait(60))
    if is_host:
        shutil.rmtree(socket.parent)  # systemd makes and removes it for the units' sockets.


main()
