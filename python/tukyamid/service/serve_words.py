"""The words of `tukyamid-server serve`."""

from __future__ import annotations

import argparse
from pathlib import Path

from .storage.partial_reads import MOST
from .task_limit import most_engines


def add_words_of_serve(words: argparse.ArgumentParser) -> None:
    words.add_argument("--socket", metavar="PATH", type=Path,
                       help="where to listen; not needed if systemd passes a socket")
    words.add_argument("--mode", metavar="OCTAL", type=_mode, default=0o600,
                       help="the socket's permissions; any client that can connect can change verdicts (600)")
    words.add_argument("--read-only-socket", metavar="PATH", type=Path,
                       help="listen here too, for clients that may only ask")
    words.add_argument("--read-only-mode", metavar="OCTAL", type=_mode, default=0o666,
                       help="the permissions of that socket (666)")
    words.add_argument("--idle", metavar="SECONDS", type=_seconds, default=None,
                       help="end when nobody has been connected for this long (never)")
    words.add_argument("--engines", metavar="N", type=_count, default=most_engines(),
                       help="run up to N engines, more than one only while there is much to do (as many as processors, "
                            "if the limit on tasks allows that)")
    words.add_argument("--readers", metavar="N", type=_number, default=0,
                       help="have N further processes answer questions, each with engines of its own (0)")
    words.add_argument("--budget", metavar="N", type=_count, default=MOST.certificates,
                       help="the most certificates of one engine; a larger keyring is loaded in parts (65536)")
    words.add_argument("--views", metavar="N", type=_count, default=256, help="the most views of one client (256)")
    words.add_argument("--patience", metavar="SECONDS", type=_seconds, default=60.0,
                       help="disconnect a client that reads none of its replies for this long (60)")
    words.add_argument("--max-age", metavar="SECONDS", type=_seconds,
                       help="refuse questions if others' changes may have been missed for longer than this (never)")
    words.add_argument("--directory", metavar="FOLDER", type=Path, default=None,
                       help="the certificate directory of load and store (pgp.cert.d in the user's data folder)")
    words.add_argument("--verifier", metavar="PROGRAM", help="the program wot-verdicts")
    words.add_argument("--order", metavar="FILE", help="record the order of all clients' lines, for tests")


def _mode(text: str) -> int:
    if not 0 <= (mode := int(text, 8)) <= 0o7777:
        raise ValueError
    return mode


def _number(text: str) -> int:
    number = int(text)
    if number < 0:
        raise ValueError
    return number


def _count(text: str) -> int:
    number = _number(text)
    if number < 1:
        raise ValueError
    return number


def _seconds(text: str) -> float:
    seconds = float(text)
    if not 0 < seconds < float("inf"):
        raise ValueError
    return seconds
