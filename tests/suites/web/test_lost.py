"""What the page asks is lost on the way: the connection, the service, or the time. It says so, and repairs it without
losing the question."""

import os
import signal
import time

from browser import needs_browser
from page import PATIENCE, needs_page
from test_browser import CAROL
from test_places import Places
from test_service import server_of

# The command, but its page tries again after a moment, or waits only so long for an answer. SIGUSR1 closes its port and
# all connections, and SIGUSR2 opens the port again.
CLOSING = """
import asyncio, signal, socket, sys
from tukyamid.web import http_server, web_command
files, (before, after) = web_command.read_files(), sys.argv[1].split(" -> ")
script = files["asking.js"].octets.decode()
assert script.count(before) == 1
files["asking.js"] = files["asking.js"]._replace(octets=script.replace(before, after).encode())
web_command.read_files = lambda: files
class Site(http_server.web.SockSite):
    async def start(self):
        await super().start()
        self.port = self._sock.getsockname()[1]
        loop = asyncio.get_running_loop()
        loop.add_signal_handler(signal.SIGUSR1, self.shut)
        loop.add_signal_handler(signal.SIGUSR2, lambda: loop.create_task(self.open()))
    def shut(self):
        self._server.close()
        for one in self._runner.server.connections:
            one.transport.abort()
    async def open(self):
        opened = socket.socket()
        opened.setsockopt(socket.SOL_SOCKET, socket.SO_REUSEADDR, 1)
        opened.bind(("127.0.0.1", self.port))
        await asyncio.get_running_loop().create_server(self._runner.server, sock=opened)
http_server.web.SockSite = Site
sys.exit(web_command.run(sys.argv[2:]))
"""
SOON = "[300, 1000, 2000, 4000] -> [20]"
IMPATIENT = "PATIENCE = 30000 -> PATIENCE = 2000"
MANY_TRIES = 25

# The command, but the service is killed when this begins for the first time: an overview or a plan, or the network.
KILLING = """
import os, signal, sys
from tukyamid.web import network, overview_jobs, web_command
left = [int(sys.argv[1])]
def kill():
    if left:
        os.kill(left.pop(), signal.SIGKILL)
run, gather = overview_jobs._Survey.run, network.Network.gather
async def killed(self, words, asked):
    kill()
    await run(self, words, asked)
def without(self, client):
    kill()
    gather(self, client)
if sys.argv[2] == "network":
    network.Network.gather = without
else:
    overview_jobs._Survey.run = killed
sys.exit(web_command.run(sys.argv[3:]))
"""


class Lost(Places):
    def service(self):
        [path] = self.page.runtime.rglob("*.socket")
        return server_of(path)

    def open_start(self, address):
        self.browser.open(address)
        self.browser.wait("return document.querySelector('.tree a') && document.querySelector('#unreached li a')")

    def is_repaired(self):
        """The question was kept: the key that was asked for is shown, and nothing is said any more."""
        self.at_key(CAROL)
        self.browser.wait_text("#key-user-ids", "120 of 120")
        self.browser.wait("return !document.querySelector('#trouble').innerText")


@needs_page
@needs_browser
class Connection(Lost):
    def test_a_closed_port_is_said_and_asked_again_once_it_is_open(self):
        """However often it was tried meanwhile."""
        process, address = self.served_by(CLOSING, SOON)
        self.open_start(address)
        self.browser.requests()
        process.send_signal(signal.SIGUSR1)
        self.follow(CAROL, ".tree")
        self.browser.wait_text("#trouble", "The connection to the command tukyamid web is lost.")
        self.many_tries()
        process.send_signal(signal.SIGUSR2)
        self.is_repaired()

    def many_tries(self):
        tries, over = 0, time.monotonic() + PATIENCE
        while tries < MANY_TRIES:
            self.assertLess(time.monotonic(), over, f"the page tried {tries} times and no more")
            tries += sum(one.endswith("/call/key") for one in self.browser.requests())

    def test_an_answer_that_never_comes_is_asked_for_again(self):
        process, address = self.served_by(CLOSING, IMPATIENT)
        self.open_start(address)
        process.send_signal(signal.SIGSTOP)
        self.follow(CAROL, ".tree")
        self.browser.wait_text("#trouble", "seconds. Asking again; your question stays in the address.")
        self.assertNotIn("lost", self.browser.text("#trouble"))
        process.send_signal(signal.SIGCONT)
        self.is_repaired()

    def test_a_late_answer_is_said(self):
        self.start()
        os.kill(self.page.process.pid, signal.SIGSTOP)
        try:
            self.follow(CAROL, ".tree")
            self.browser.wait_text("#trouble", "Still waiting for the answer…")
        finally:
            os.kill(self.page.process.pid, signal.SIGCONT)
        self.is_repaired()


@needs_page
@needs_browser
class Service(Lost):
    def test_it_is_started_again(self):
        self.start()
        os.kill(self.service(), signal.SIGKILL)
        self.follow(CAROL, ".tree")
        self.is_repaired()

    def test_it_is_frozen(self):
        self.start()
        service = self.service()
        os.kill(service, signal.SIGSTOP)
        try:
            self.follow(CAROL, ".tree")
            self.browser.wait_text("#trouble", "Still waiting for the answer…")
        finally:
            os.kill(service, signal.SIGCONT)
        self.is_repaired()

    def killed_in(self, what):
        """The page of a command that kills the service once as this begins."""
        return self.served_by(KILLING, str(self.service()), what)[1]

    def test_it_is_killed_while_the_network_is_gathered(self):
        self.open_start(self.killed_in("network"))
        self.browser.wait_text("#counts", "fully authenticated")

    def test_it_is_killed_while_an_overview_is_made(self):
        self.browser.open(self.killed_in("overview") + "#overview")
        self.whole_overview()
        self.assertEqual(self.lines("#overview .warn"), [])

    def test_it_is_killed_while_a_plan_is_made(self):
        self.browser.open(self.killed_in("plan") + "#plans")
        self.browser.wait("return document.querySelector('#look')")
        self.browser.click("#look")
        self.browser.wait("return document.querySelectorAll('#fragile-tables section').length === 3")
