"""Behind nginx on loopback, by the lines of docs/PUBLIC.md."""

import os
import re
import shutil
import socket
import subprocess
import unittest

from everyone import PATIENCE, Asking, Everyone, Public
from friends import PEOPLE
from outside import ROOT
from page import needs_page

NGINX = shutil.which("nginx", path="/usr/sbin:/usr/bin:/sbin:/bin")
# Only root may name a user, and only root needs one: nobody else may open the folder with the sockets.
USER = "user root;" if os.geteuid() == 0 else ""
AROUND = """daemon off; worker_processes 1; {user} pid {own}/nginx.pid; error_log {own}/nginx.log;
events {{}}
http {{
    access_log off;
    client_body_temp_path {own}/body; proxy_temp_path {own}/proxy; fastcgi_temp_path {own}/fastcgi;
    uwsgi_temp_path {own}/uwsgi; scgi_temp_path {own}/scgi;
    {lines}
}}
"""


def lines_of(own, port):
    """The lines of the document, with an address and folders of this test's own."""
    page = (ROOT / "docs" / "PUBLIC.md").read_text()
    (lines,) = re.findall(r"^ *```nginx\n(.*?)^ *```", page, re.DOTALL | re.MULTILINE)
    for shown, here in (("/run/tukyamid-public/http", f"{own}/behind"), ("listen 80;", f"listen 127.0.0.1:{port};"),
                        ("/var/lib/nginx/tukyamid", f"{own}/cache")):
        if lines.count(shown) != 1:
            raise AssertionError(f"{shown} is there {lines.count(shown)} times")
        lines = lines.replace(shown, here)
    return lines


class Nginx(Asking):
    """nginx at a port that the test has bound, so that nobody else can have it."""

    def __init__(self, own):
        with socket.create_server(("127.0.0.1", 0)) as bound:
            port, file = bound.getsockname()[1], own / "nginx.conf"
            file.write_text(AROUND.format(own=own, user=USER, lines=lines_of(own, port)))
            self.process = subprocess.Popen([NGINX, "-p", own, "-c", file], stdin=subprocess.DEVNULL,
                                            stderr=subprocess.DEVNULL, pass_fds=[bound.fileno()],
                                            env={**os.environ, "NGINX": f"{bound.fileno()};"})
        self.address = f"http://127.0.0.1:{port}/"

    def close(self):
        self.process.terminate()
        self.process.wait(PATIENCE)


@needs_page
@unittest.skipUnless(NGINX, "nginx isn't installed")
class Behind(Public):
    def test_answers_come_through(self):
        own, query = self.service.own, self.about("Carol", PEOPLE["Carol"])
        everyone = Everyone(self.service, *self.sets, "--rate", "1000", listen=f"unix:{own}/behind")
        self.addCleanup(everyone.close)
        nginx = Nginx(own)
        self.addCleanup(nginx.close)
        _, wanted, answer = self.everyone.ask("authenticate", query)
        status, headers, found = nginx.ask("authenticate", query)
        self.assertEqual((status, headers["ETag"], found), (200, wanted["ETag"], answer))
        status, headers, none = nginx.ask("authenticate", query, If_None_Match=wanted["ETag"])
        self.assertEqual((status, headers["ETag"], none), (304, wanted["ETag"], None))
        self.assertEqual(nginx.request("/api/v1/list", "POST", b"{}")[0], 405)

    def test_a_visitor_cant_name_another_address(self):
        """nginx says whose request it is, whatever that request says."""
        own = self.service.own
        everyone = Everyone(self.service, *self.sets, "--rate", "0.001", listen=f"unix:{own}/behind")
        self.addCleanup(everyone.close)
        nginx = Nginx(own)
        self.addCleanup(nginx.close)
        self.assertEqual(nginx.request("/nothing")[0], 404)
        for said in {}, {"X_Forwarded_For": "192.0.2.1"}, {"Forwarded": "for=192.0.2.1"}:
            self.assertEqual(nginx.request("/nothing", **said)[0], 429, said)
