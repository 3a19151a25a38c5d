"""30,000 keys of a keyserver's network in the browser: the start page, a key, an answer, and the overview. What is
authenticated is looked for here in the certifications themselves."""

import contextlib
import json
import os
import sqlite3
import subprocess
import sys
from collections import defaultdict
from pathlib import Path

from browser import Browser, needs_browser
from network import NOW, Network, fill
from outside import folder
from page import Page, needs_page
from test_places import OVERLAPS, Places

KEYS, ROOT = 30_000, 0


def made(path):
    """A database of them. Returns the network and who certified whom: the depths by issuer and target."""
    network = Network(KEYS)
    fill(path, network)
    depths = defaultdict(set)
    with contextlib.closing(sqlite3.connect(path)) as connection:
        # The rows of keys and certificates are numbered from 1, in the order of the network.
        for issuer, target, depth in connection.execute("SELECT issuer, certificate, depth FROM verdicts"):
            if issuer != target:
                depths[issuer - 1, target - 1].add(depth)
    return network, depths


def reached(depths, choose):
    """The keys that a path leads to: each certification on it is deep enough for all that come after it. Of several
    certifications of a key by another, `choose` says which counts."""
    certified = defaultdict(list)
    for (issuer, target), found in depths.items():
        certified[issuer].append((target, choose(found)))
    may_certify, found = {ROOT: 255}, {ROOT}
    waiting = [ROOT]
    while waiting:
        issuer = waiting.pop()
        for target, depth in certified[issuer]:
            found.add(target)
            left = min(may_certify[issuer] - 1, depth)
            if left > may_certify.get(target, 0):
                may_certify[target] = left
                waiting.append(target)
    return found


@needs_page
@needs_browser
class ThirtyThousand(Places):
    @classmethod
    def setUpClass(cls):
        database = folder() / "thirty-thousand.db"
        cls.network, cls.depths = made(database)
        cls.reached = reached(cls.depths, max)
        assert cls.reached == reached(cls.depths, min), "which certification counts is decided by their times"
        cls.page = Page([], [cls.network.fingerprint(ROOT).hex()], NOW, database=database)
        cls.addClassCleanup(cls.page.close)
        cls.browser = Browser()
        cls.addClassCleanup(cls.browser.close)

    def name(self, place):
        return self.network.user_id(place).decode()

    def open_start(self, width=1280):
        self.browser.size(width)
        self.browser.open(self.page.address)
        self.browser.wait_text("#counts", f"✓ {len(self.reached):,} fully authenticated")
        self.browser.wait("return document.querySelector('#unreached li a')")

    def test_the_start_page_stays_small(self):
        for width in 1280, 360:
            with self.subTest(width):
                self.open_start(width)
                self.assertEqual(self.browser.text("#counts .count:nth-child(3)").partition("\n")[0],
                                 f"✗ {KEYS - len(self.reached):,} not authenticated")
                self.assertLess(self.browser.run("return document.querySelectorAll('.tree a').length"), 100)
                self.assertEqual(self.browser.run(OVERLAPS, ".tree a"), 0)
                self.assertLessEqual(self.browser.run("return document.documentElement.scrollWidth"), width)

    def test_a_key_and_an_answer(self):
        """From the picture to a key that isn't authenticated, and why not."""
        self.open_start()
        self.follow("User ", "#unreached")
        title = self.browser.wait("return !document.querySelector('#key').hidden && document.querySelector("
                                  "'#key-user-ids li') && document.querySelector('#key-title').textContent")
        place = int(title.split()[1])
        self.assertNotIn(place, self.reached)
        certified = {target for issuer, target in self.depths if issuer == place}
        self.browser.wait_text("#for-count", f"{len(certified):,}")
        self.follow(title, "#key-user-ids")
        self.browser.wait_text(".verdict", "no path leads here from your roots")

    def test_the_overview(self):
        self.open_start()
        self.browser.click("#to-overview")
        self.browser.wait("return document.querySelector('#tables').dataset.done")
        self.browser.click("#json")
        whole = json.loads(Path(self.browser.saved("overview.json")).read_text(encoding="utf-8"))
        tables = {one["name"]: one for one in whole["tables"]}
        self.assertEqual([row[2] for row in tables["bindings"]["rows"]],
                         [len(self.reached), 0, 0, KEYS - len(self.reached)])
        [[algorithm, count, weak, _]] = tables["hashes"]["rows"]
        self.assertEqual((algorithm, weak), ("SHA2-256", 0))
        self.assertGreaterEqual(count, len(self.depths))
        self.assertEqual(self.browser.run("return document.querySelectorAll('#tables [data-name]').length"), 5)

    def test_what_is_there_so_far_is_shown(self):
        """The lines that an overview writes: how far it is, and no table that was there is gone later."""
        [socket] = self.page.runtime.rglob("*.socket")
        asked = json.dumps({"time": NOW, "roots": {self.network.fingerprint(ROOT).hex(): 120}})
        made = subprocess.run(
            [sys.executable, "-m", "tukyamid.web.overview_process", str(socket)], input=asked.encode(), check=True,
            stdout=subprocess.PIPE, env={**os.environ, "PYTHONPATH": os.pathsep.join(sys.path)})
        said = [json.loads(line) for line in made.stdout.splitlines()]
        names = [[table["name"] for table in one.get("tables", [])] for one in said]
        first = next(one for one in names if one)
        self.assertEqual(first, ["bindings"])
        self.assertTrue(all(set(before) <= set(after) for before, after in zip(names, names[1:])))
        self.assertTrue(all("progress" in one for one in said[:-1]))
        self.assertNotIn("progress", said[-1])
        self.assertEqual(said[-1]["keys"], KEYS)
