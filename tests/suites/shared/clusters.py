"""Servers of PostgreSQL on loopback, run by an ordinary user."""

import contextlib
import importlib.util
import os
import pwd
import shutil
import signal
import socket
import subprocess
import tempfile
import time
import unittest
from pathlib import Path

PATIENCE = 200
PROGRAMS = max(Path("/usr/lib/postgresql").glob("*/bin"), default=Path("/none"))

needs_postgres = unittest.skipUnless(
    PROGRAMS.is_dir() and importlib.util.find_spec("psycopg"),
    "PostgreSQL isn't installed: apt-get install postgresql python3-psycopg")


def ordinary():
    """The words before a command that has it run as an ordinary user: PostgreSQL refuses root."""
    if os.geteuid():
        return []
    user = pwd.getpwnam("nobody")
    return ["setpriv", f"--reuid={user.pw_uid}", f"--regid={user.pw_gid}", "--clear-groups"]


def new_folder(add_cleanup):
    """A folder of the ordinary user's that is gone behind the test."""
    folder = Path(tempfile.mkdtemp(prefix="tukyamid-shared-"))
    add_cleanup(shutil.rmtree, folder, ignore_errors=True)
    if not os.geteuid():
        os.chown(folder, pwd.getpwnam("nobody").pw_uid, pwd.getpwnam("nobody").pw_gid)
    return folder


def free_ports(count):
    held = [socket.socket() for _ in range(count)]
    for one in held:
        one.bind(("127.0.0.1", 0))
    ports = [one.getsockname()[1] for one in held]
    for one in held:
        one.close()
    return ports


def run(*words, **named):
    """Runs a command as the ordinary user."""
    done = subprocess.run([*ordinary(), *map(str, words)], stdout=subprocess.PIPE, stderr=subprocess.STDOUT, text=True,
                          timeout=PATIENCE, check=False, cwd="/", **named)
    if done.returncode:
        raise AssertionError(f"{words[0]}: {done.stdout}")
    return done.stdout


def wait_for(holds, patience=PATIENCE):
    end = time.monotonic() + patience
    while not holds():
        if time.monotonic() > end:
            raise AssertionError("waited in vain")
        time.sleep(0.05)


# Processes are killed here and never the machine, so nothing is gained by waiting for the disk.
SETTINGS = """
listen_addresses = '127.0.0.1'
unix_socket_directories = ''
shared_buffers = '16MB'
max_connections = 50
fsync = off
wal_level = replica
hot_standby = on
"""


class Cluster:
    """One server. Its data is what `initdb` makes, or what a standby takes from its primary."""

    def __init__(self, add_cleanup, of=None, name="one", user="tukyamid"):
        """`user` is its superuser."""
        self.user = user
        self.folder = new_folder(add_cleanup)
        self.data = self.folder / "data"
        self.port, = free_ports(1)
        self.name = name
        if of is None:
            run(PROGRAMS / "initdb", "-D", self.data, "-A", "trust", "-U", user, "-E", "UTF8", "--no-locale",
                "--no-sync")
            self.set(SETTINGS)
        else:
            run(PROGRAMS / "pg_basebackup", "-D", self.data, "-R", "--no-sync", "-c", "fast", "-d",
                f"{of.at()} application_name={name}")
        self.set(f"port = {self.port}")
        add_cleanup(self.kill)
        self.start()
        if of is None:
            self.query("CREATE DATABASE keyring", "postgres")

    def set(self, lines):
        with open(self.data / "postgresql.conf", "a", encoding="utf-8") as file:
            file.write(lines + "\n")

    def at(self, database="postgres"):
        return f"host=127.0.0.1 port={self.port} user={self.user} dbname={database}"

    def url(self, *others):
        """The URL of the keyring on this server, or on whichever of these is the primary."""
        hosts = ",".join(f"127.0.0.1:{one.port}" for one in (self, *others))
        return f"postgresql://tukyamid@{hosts}/keyring"

    def start(self):
        run(PROGRAMS / "pg_ctl", "-D", self.data, "-l", self.folder / "log", "-w", "-t", PATIENCE, "start")

    def stop(self, mode="fast"):
        run(PROGRAMS / "pg_ctl", "-D", self.data, "-m", mode, "-w", "-t", PATIENCE, "stop")

    def reload(self):
        run(PROGRAMS / "pg_ctl", "-D", self.data, "reload")

    def promote(self):
        run(PROGRAMS / "pg_ctl", "-D", self.data, "-w", "-t", PATIENCE, "promote")

    def query(self, statement, database="keyring"):
        import psycopg
        with psycopg.connect(self.at(database), autocommit=True) as connection:
            cursor = connection.execute(statement)
            return cursor.fetchall() if cursor.description else []

    def pids(self):
        """The server's processes, the first of which started the others."""
        first = int((self.data / "postmaster.pid").read_text().split("\n")[0])
        children = Path(f"/proc/{first}/task/{first}/children").read_text().split()
        return [first, *map(int, children)]

    def kill(self):
        """SIGKILL for all processes of the server, as where its machine dies."""
        try:
            pids = self.pids()
        except (OSError, ValueError):
            return
        for pid in pids:
            with contextlib.suppress(ProcessLookupError):
                os.kill(pid, signal.SIGKILL)
        wait_for(lambda: not any(_is_alive(pid) for pid in pids))


def _is_alive(pid):
    try:
        return Path(f"/proc/{pid}/stat").read_text().rpartition(")")[2].split()[0] not in "ZX"
    except OSError:
        return False
