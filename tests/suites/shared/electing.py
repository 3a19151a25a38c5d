"""Clusters whose primary is elected: PostgreSQL under Patroni, with etcd, as Debian has them."""

import contextlib
import json
import os
import shutil
import signal
import subprocess
import unittest
import urllib.error
import urllib.request
from pathlib import Path

from clusters import PROGRAMS, free_ports, new_folder, ordinary, run, wait_for

PATRONI, PATRONICTL, ETCD = (shutil.which(name) for name in ("patroni", "patronictl", "etcd"))
needs_patroni = unittest.skipUnless(PATRONI and ETCD,
                                    "Patroni isn't installed: apt-get install patroni etcd-server python3-etcd")

# As docs/CLUSTER.md has them.
SETTINGS = {
    "ttl": 20, "loop_wait": 1, "retry_timeout": 3, "synchronous_mode": True, "master_start_timeout": 0,
    "postgresql": {"use_pg_rewind": True, "parameters": {
        "wal_sender_timeout": "5s", "wal_receiver_timeout": "5s",
        "shared_buffers": "16MB", "unix_socket_directories": "", "max_connections": 60}},
}
_STREAMING = "SELECT count(*) FROM pg_stat_replication WHERE state = 'streaming'"
ETCD_SETTINGS = {"ETCD_ENABLE_V2": "true", "ETCD_PRE_VOTE": "true"}


class Member:
    """One machine of three: etcd and Patroni with its server. `at` is its address, and what is done `inside` is done
    there."""

    def __init__(self, add_cleanup, place, at, inside, client="etcd"):
        """`client` is which of Patroni's clients of etcd is used: `etcd` compares before it writes, `etcd3` doesn't."""
        self.name = f"member{place}"
        self.client = client
        self.folder = new_folder(add_cleanup)
        self.at = at
        self.inside = inside
        self.port, self.rest, self.etcd, self.peer = free_ports(4)
        self._processes = {}
        add_cleanup(self.end)

    @classmethod
    def start_three(cls, add_cleanup, places=(("127.0.0.1", contextlib.nullcontext),) * 3, client="etcd", etcd=None):
        """`etcd` are settings of etcd other than those that docs/CLUSTER.md has."""
        members = [cls(add_cleanup, place, at, inside, client) for place, (at, inside) in enumerate(places)]
        for member in members:
            member.prepare(members)
        for member in members:
            member.start_etcd(ETCD_SETTINGS if etcd is None else etcd)
        for member in members:
            member.start()
        wait_for(lambda: cls.is_whole(members))
        primary = cls.primary_of(members)
        with primary.inside():
            run(PROGRAMS / "createdb", "-h", primary.at, "-p", primary.port, "-U", "tukyamid", "keyring")
        return members

    @staticmethod
    def url(members):
        return "postgresql://tukyamid@" + ",".join(f"{one.at}:{one.port}" for one in members) + "/keyring"

    @staticmethod
    def is_whole(members):
        """Whether there is a primary with a synchronous standby, and all others follow it."""
        roles = [one.role() for one in members]
        if roles.count("master") != 1 or "sync_standby" not in roles or "" in roles:
            return False
        try:
            return members[roles.index("master")].rows(_STREAMING, "postgres") == [(len(members) - 1,)]
        except OSError:
            return False

    @staticmethod
    def primary_of(members):
        wait_for(lambda: any(one.role() == "master" for one in members))
        return next(one for one in members if one.role() == "master")

    def role(self):
        """What Patroni says of it: master, sync_standby, replica; nothing if nobody says."""
        try:
            told = json.loads(self.ask("/patroni"))
        except (OSError, ValueError):
            return ""
        if told.get("state") != "running":
            return ""
        return "sync_standby" if told.get("sync_standby") else told["role"]

    def ask(self, path):
        """What Patroni answers, whichever status it gives with it."""
        try:
            with self.inside(), urllib.request.urlopen(f"http://{self.at}:{self.rest}{path}", timeout=2) as answer:
                return answer.read()
        except urllib.error.HTTPError as answer:
            return answer.read()

    def prepare(self, members):
        self._peers = ",".join(f"{one.name}=http://{one.at}:{one.peer}" for one in members)
        self.settings = self.folder / "patroni.json"
        self.settings.write_text(json.dumps({
            "scope": "tukyamid", "name": self.name,
            "restapi": {"listen": f"{self.at}:{self.rest}", "connect_address": f"{self.at}:{self.rest}"},
            self.client: {"hosts": [f"{one.at}:{one.etcd}" for one in members]},
            "bootstrap": {"dcs": SETTINGS, "initdb": [{"encoding": "UTF8"}, "no-locale", "no-sync", {"auth": "trust"}]},
            "postgresql": {
                "listen": f"{self.at}:{self.port}", "connect_address": f"{self.at}:{self.port}",
                "data_dir": str(self.folder / "data"), "bin_dir": str(PROGRAMS),
                "pgpass": str(self.folder / "pgpass"), "basebackup": ["no-sync", {"checkpoint": "fast"}],
                "pg_hba": ["host all all all trust", "host replication all all trust"],
                "authentication": {"superuser": {"username": "tukyamid"}, "replication": {"username": "tukyamid"},
                                   "rewind": {"username": "tukyamid"}},
            }}))
        self.settings.chmod(0o644)

    def _start(self, name, *words, settings=None):
        with open(self.folder / f"{name}.log", "ab") as log, self.inside():
            self._processes[name] = subprocess.Popen(
                [*ordinary(), *map(str, words)], stdin=subprocess.DEVNULL, stdout=log,
                stderr=subprocess.STDOUT, cwd="/", start_new_session=True,
                env={**os.environ, "HOME": str(self.folder), **(settings or {})})

    def start_etcd(self, settings):
        clients, peers = (f"http://{self.at}:{port}" for port in (self.etcd, self.peer))
        self._start("etcd", ETCD, "--name", self.name, "--data-dir", self.folder / "etcd",
                    "--listen-client-urls", clients, "--advertise-client-urls", clients,
                    "--listen-peer-urls", peers, "--initial-advertise-peer-urls", peers,
                    "--initial-cluster", self._peers, "--initial-cluster-state", "new",
                    "--heartbeat-interval", 500, "--election-timeout", 5000, settings=settings)

    def start(self):
        self._start("patroni", PATRONI, self.settings)

    def rows(self, statement, database="keyring"):
        """Does a statement at its server; OSError if it can't be reached."""
        import psycopg
        try:
            with self.inside():
                connection = psycopg.connect(host=self.at, port=self.port, user="tukyamid", dbname=database,
                                             connect_timeout=5, autocommit=True)
            with contextlib.closing(connection):
                cursor = connection.execute(statement)
                return cursor.fetchall() if cursor.description else []
        except psycopg.OperationalError as error:
            raise OSError(str(error)) from None

    def stop(self, name):
        """Ends etcd or Patroni as systemd does."""
        process = self._processes[name]
        process.terminate()
        process.wait(60)

    def control(self, *words):
        """Has patronictl do something."""
        with self.inside():
            return run(PATRONICTL, "-c", self.settings, *words)

    def logs(self):
        """The files with what its programs have said."""
        return [*self.folder.glob("*.log"), *self.folder.glob("data/log/*")]

    def server(self):
        """The processes of the server, the first of which started the others."""
        try:
            first = int((self.folder / "data" / "postmaster.pid").read_text().split("\n")[0])
            children = Path(f"/proc/{first}/task/{first}/children").read_text().split()
        except (OSError, ValueError):
            return []
        return [first, *map(int, children)]

    def kill(self):
        """SIGKILL for all processes of the server."""
        for pid in self.server():
            with contextlib.suppress(ProcessLookupError):
                os.kill(pid, signal.SIGKILL)

    def end(self):
        for process in self._processes.values():
            with contextlib.suppress(ProcessLookupError):
                os.kill(process.pid, signal.SIGKILL)
            process.wait()
        self.kill()
