"""The command has ended, its page is still open, and another user's program listens at its port."""

import json
import signal
import threading
from http.server import BaseHTTPRequestHandler, ThreadingHTTPServer
from urllib.parse import quote_plus, urlsplit

from browser import needs_browser
from page import PATIENCE, needs_page
from test_browser import CAROL, InBrowser

FRANK = "Frank <frank@example.org>"


def forging(answer):
    """What gives this answer to every call."""
    class Forging(BaseHTTPRequestHandler):
        def do_POST(self):
            self.rfile.read(int(self.headers["Content-Length"]))
            self.send_response(200)
            self.send_header("Content-Type", "application/json")
            self.send_header("Content-Length", str(len(answer)))
            self.send_header("Tukyamid-Seal", "0" * 64)
            self.end_headers()
            self.wfile.write(answer)

        def log_message(self, *_):
            pass

    return Forging


@needs_page
@needs_browser
class TakenPort(InBrowser):
    def listen(self, port, answer):
        """Listens at the port from now on."""
        server = self.enterContext(ThreadingHTTPServer(("127.0.0.1", port), forging(answer)))
        thread = threading.Thread(target=server.serve_forever)
        thread.start()
        self.addCleanup(thread.join)
        self.addCleanup(server.shutdown)

    def test_no_forged_answer_is_shown(self):
        self.open("Carol", CAROL)
        self.browser.wait_text(".verdict", "120 of 120")
        forged = self.page.call("answer", **self.subject("Carol", CAROL))
        self.page.process.send_signal(signal.SIGINT)
        self.page.process.wait(PATIENCE)
        self.listen(urlsplit(self.page.address).port, json.dumps(forged).encode())
        self.browser.run("location.hash = arguments[0]", f"ask?key={self.fpr['Frank']}&uid={quote_plus(FRANK)}")
        self.browser.wait("return document.body.innerText.includes('isn’t the command that opened it')")
        self.assertNotIn("120 of 120", self.browser.run(
            "return [...document.querySelectorAll('.verdict')].map((one) => one.innerText).join()"))
