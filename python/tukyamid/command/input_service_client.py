"""Opens the keyring of inputs that were asked about before: at a service of their own, which holds nothing else."""

from __future__ import annotations

import os
import time

from ..client import Client
from ..fast_imports import TYPE_CHECKING
from ..keyrings.keyring import Keyring
from ..keyrings.service_keyring import served_keyring
from ..protocol.refusals import ServiceMissing, TukyamidError
from .input_service import find_record, held_file, keep_record
from .named_inputs import Stamp
from .user_service import answering

if TYPE_CHECKING:
    from collections.abc import Callable, Sequence

    from ..keyrings.verified_cache import Entry
    from .named_inputs import Source
    from .parsed_words import Given


class Reopening:
    """Inputs that may have a service, which is sent the lines `ahead` at once. `as_paths` gives them as files."""

    def __init__(self, given: Given, sources: list[Source], as_paths: Callable[[], list[str]],
                 ahead: Sequence[bytes] = ()) -> None:
        self._given, self._sources, self._as_paths, self._ahead = given, sources, as_paths, ahead
        self._digest = ""

    def served(self) -> Keyring | None:
        """Their keyring at their service; None if it doesn't run, and can't be started at once."""
        try:
            self._digest = self._known_digest() or self._read_digest()
            client = self._connect() or self._restart()
        except (OSError, TukyamidError):
            return None  # What fails here fails again where the inputs are read, and is said there.
        return served_keyring(client) if client is not None else None

    def begin_after(self, keyring: Keyring) -> Keyring:
        """Has their service started beside this question, now that they are verified and kept, so that the next one is
        answered at once. If that can't be done, it is answered as this one was."""
        try:
            entry = self._entry()
            if entry is not None:
                from .after_answer import do_later
                from .input_service_start import begin, has_room
                if has_room(self._socket()):
                    do_later(begin(str(entry.folder), self._socket()).wait)
        except (OSError, TukyamidError):
            pass
        return keyring

    def ensure(self, verify: Callable[[], Keyring]) -> Callable[[], str]:
        """What starts their service unless it runs, and returns its socket. `verify` verifies and keeps them, if that
        wasn't done before."""
        served = self.served()
        if served is not None:
            served.close()
        if served is None or self._entry() is None:  # Others may have taken its place since the service was started.
            verify().close()
        entry = self._entry()
        if entry is None:
            from ..keyrings.verifier import VerifierFailed
            raise VerifierFailed("the verified inputs couldn't be saved, and the page needs them")
        from .input_service_start import main
        folder, socket = str(entry.folder), self._socket()

        def start() -> str:
            main([folder, socket])
            return socket
        return start

    def _stamp(self) -> Stamp | None:
        """The stamp of all inputs, and of how the verifier is found; None if one has none."""
        parts, newest = [], 0
        for source in self._sources:
            stamp = source.stamp()
            if stamp is None:
                return None
            parts.append(stamp.text)
            newest = max(newest, stamp.newest)
        found_by = [self._given.verifier or "", *(os.environ.get(name, "") for name in ("TUKYAMID_VERIFIER", "PATH"))]
        return Stamp("\0\0".join([*found_by, *parts]), newest)

    def _known_digest(self) -> str | None:
        stamp = self._stamp()
        record = find_record(stamp) if stamp is not None else None
        return record.digest if record is not None else None

    def _read_digest(self) -> str:
        """The digest of the inputs, by reading them."""
        from shutil import which

        from ..keyrings.input_digest import digest_of
        from ..keyrings.verifier import Verifier
        begun, stamp = time.time_ns(), self._stamp()
        verifier = Verifier([self._given.verifier] if self._given.verifier else None)
        digest = digest_of(self._as_paths(), verifier.version)
        program = which(verifier.words[0])
        if stamp is not None and program is not None:
            keep_record(stamp, begun, digest, program)
        return digest

    def _socket(self) -> str:
        return held_file(os.path.abspath(self._given.cache) if self._given.cache else "", self._digest) + ".socket"

    def _connect(self) -> Client | None:
        try:
            return answering(self._socket(), self._ahead)
        except ServiceMissing:
            return None

    def _restart(self) -> Client | None:
        """Starts their service again, if all that it needs is kept."""
        entry = self._entry()
        if entry is None:
            return None
        from .input_service_start import has_room, is_ready, start
        if not is_ready(str(entry.folder)) or not has_room(self._socket()):
            return None
        return answering(start(str(entry.folder), self._socket()), self._ahead)

    def _entry(self) -> Entry | None:
        """What was kept of the inputs. TukyamidError if the folder isn't safe."""
        from ..keyrings.verified_cache import Store
        return Store(self._given.cache).find(self._digest) if self._digest else None
