"""What changes do to the tables of a database, within one transaction. The statements are those that SQLite and
PostgreSQL understand alike; `table_check` says whether they have done it."""

from collections import Counter
from collections.abc import Iterable, Sequence
from itertools import takewhile
from typing import Any, Protocol

from .certificate_rows import Described, describe
from .database import Change, DropCertificate, Effect, HaveLooked, PutCertificate, SetVerdict
from .unlooked import LOOK, UNLOOK_ALL_VERIFIED, WAKE, put_looked

NOBODY = 0  # The key of this number has no octets: the issuer of a signature that is bad.
COUNTED = ("certificates", "octets", "user_ids", "signatures", "verdicts", "pending")
_TABLES = ("awaited", "unlooked", "verdicts", "user_ids", "subkeys", "certificates")
LIST_SUBKEY = "INSERT INTO subkeys (certificate, key_id) VALUES (?, ?) ON CONFLICT DO NOTHING"
_ADOPT = "UPDATE verdicts SET certificate = ?, depth = ? WHERE number = ? AND certificate IS NULL"
_SET_FIRST = "UPDATE verdicts SET issuer = keys.id FROM keys WHERE fingerprint = ? AND number = ? " \
    "AND certificate IS NOT NULL AND issuer IS NULL"
_MANY = 8
_BRING = "INSERT INTO verdicts (number, certificate, depth) SELECT ?, ?, ? " \
    "WHERE NOT EXISTS (SELECT 1 FROM verdicts WHERE number = ?)"


class Counted(Protocol):
    @property
    def rowcount(self) -> int: ...


class Rows(Counted, Protocol):
    """What a statement has found."""

    def fetchone(self) -> Any: ...

    def fetchall(self) -> Any: ...


class Statements(Protocol):
    """Does statements, in which `?` is the place of a value."""

    def execute(self, statement: str, values: Sequence[Any] = (), /) -> Rows: ...

    def executemany(self, statement: str, values: Iterable[Sequence[Any]], /) -> Counted: ...


class Writing:
    """Changes within one transaction. `count` is called behind the last of them."""

    def __init__(self, connection: Statements) -> None:
        self._connection = connection
        self._number = int(connection.execute("SELECT coalesce(max(number), 0) FROM changes").fetchone()[0])
        self._keys: dict[bytes, int] = {b"": NOBODY}
        self._more: Counter[str] = Counter()
        # How many verdicts are on signatures that no kept certificate has.
        self._loose = int(connection.execute("SELECT verdicts + pending - signatures FROM counts").fetchone()[0])

    def make(self, change: Change, now: int) -> int:
        """Makes a change, and gives the number of the last change so far."""
        verdicts = list(takewhile(lambda effect: isinstance(effect, SetVerdict), change.effects))
        made = self._make_first(verdicts)
        rest = change.effects if made < len(verdicts) else change.effects[made:]
        if any([made > 0, *[self._is_made(effect) for effect in rest]]):
            self._log(change, now)
        return self._number

    def _log(self, change: Change, now: int) -> None:
        self._number += 1
        self._connection.execute("INSERT INTO changes VALUES (?, ?, ?, ?, ?)",
                                 (self._number, now, change.actor.uid, change.actor.pid, change.what))

    def fill(self, lines: Iterable[bytes], change: Change, now: int) -> int:
        """Puts what these lines bring into the place of everything."""
        for table in _TABLES:
            self._connection.execute(f"DELETE FROM {table}")
        self._connection.execute(f"UPDATE counts SET {', '.join(f'{name} = 0' for name in COUNTED)}")
        self._loose = 0
        for line in lines:
            word, _, rest = line.partition(b" ")
            if word == b"import":
                octets = bytes.fromhex(rest.decode())
                self._put(describe(octets), octets)
            else:
                number, _, issuer = rest.partition(b" ")
                self._set_verdict(bytes.fromhex(number.decode()), bytes.fromhex(issuer.removeprefix(b"good ").decode())
                                  if issuer != b"bad" else b"")
        self._connection.execute(UNLOOK_ALL_VERIFIED)
        self._log(change, now)
        self.count()
        return self._number

    def count(self) -> None:
        """Has the counts say what there is now."""
        if any(self._more.values()):
            self._connection.execute(f"UPDATE counts SET {', '.join(f'{name} = {name} + ?' for name in COUNTED)}",
                                     [self._more[name] for name in COUNTED])
        self._more.clear()

    def _make_first(self, effects: Sequence[Effect]) -> int:
        """Of some verdicts, makes those that are the first on a signature of a kept certificate, by a kept key, and
        returns how many these are. To make one again changes nothing."""
        if len(effects) < _MANY:
            return 0
        made = self._connection.executemany(_SET_FIRST, [
            (effect.issuer, effect.number) for effect in effects if isinstance(effect, SetVerdict)]).rowcount
        self._more["verdicts"] += made
        self._more["pending"] -= made
        return made

    def _is_made(self, effect: Effect) -> bool:
        """Makes an effect, and says whether anything is other than before."""
        match effect:
            case PutCertificate(_, octets):
                return self._put(describe(octets), octets)
            case DropCertificate(fpr):
                return self._drop(fpr)
            case SetVerdict(number, issuer):
                return self._set_verdict(number, issuer)
            case HaveLooked(looked):
                put_looked(lambda query, *values: self._connection.execute(query, values).fetchall(),
                           self._connection.executemany, looked)
                return False

    def _one(self, statement: str, *values: object) -> Any:
        """The first row, or None."""
        return self._connection.execute(statement, values).fetchone()

    def _key(self, fpr: bytes) -> int:
        """The number of a key, which it has from now on."""
        place = self._keys.get(fpr)
        if place is None:
            row = self._one("SELECT id FROM keys WHERE fingerprint = ?", fpr) \
                or self._one("INSERT INTO keys (fingerprint) VALUES (?) RETURNING id", fpr)
            place = self._keys[fpr] = int(row[0])
        return place

    def _put(self, described: Described, octets: bytes) -> bool:
        place = self._key(described.fpr)
        row = self._one("SELECT length(octets) FROM certificates WHERE id = ?", place)
        if row is None:
            self._more["certificates"] += 1
            self._connection.execute("INSERT INTO certificates (id, key_id, octets, change) VALUES (?, ?, ?, ?)",
                                     (place, described.key_id, octets, self._number + 1))
        elif self._one("UPDATE certificates SET octets = ?, change = ? WHERE id = ? AND octets <> ? RETURNING id",
                       octets, self._number + 1, place, octets) is None:
            return False
        self._more["octets"] += len(octets) - (row[0] if row is not None else 0)
        if described.user_ids:
            self._more["user_ids"] += self._connection.executemany(
                "INSERT INTO user_ids VALUES (?, ?, ?) ON CONFLICT DO NOTHING",
                [(place, user_id, address) for user_id, address in described.user_ids.items()]).rowcount
        if described.subkeys:
            self._connection.executemany(LIST_SUBKEY, [(place, key_id) for key_id in described.subkeys])
        self._bring(place, described.signatures, is_new=row is None)
        if row is None:
            for (waiting,) in self._connection.execute(WAKE, (described.key_id,)).fetchall():
                self._have_looked_at(waiting)
        return True

    def _have_looked_at(self, place: int) -> None:
        """Has the verifier look at a certificate."""
        self._connection.execute(LOOK, (self._number + 1, place))

    def _bring(self, place: int, signatures: dict[bytes, int], is_new: bool) -> None:
        """Has a certificate carry these signatures too. Some may have a verdict already, as those of a certificate
        that was dropped."""
        known = set() if is_new else {bytes(row[0]) for row in self._connection.execute(
            "SELECT number FROM verdicts WHERE certificate = ?", (place,)).fetchall()}
        new = [(number, depth) for number, depth in signatures.items() if number not in known]
        self._more["signatures"] += len(new)
        self._more["pending"] += len(new)
        if new:
            self._have_looked_at(place)
        if new and self._loose:
            adopted = self._connection.executemany(
                _ADOPT, [(place, depth, number) for number, depth in new]).rowcount
            self._connection.executemany(_BRING, [(number, place, depth, number) for number, depth in new])
            self._more["pending"] -= adopted
            self._loose -= adopted
        elif new:
            self._connection.executemany("INSERT INTO verdicts (number, certificate, depth) VALUES (?, ?, ?)",
                                         [(number, place, depth) for number, depth in new])

    def _drop(self, fpr: bytes) -> bool:
        row = self._one("SELECT id, length(octets), (SELECT count(*) FROM user_ids WHERE certificate = id) "
                        "FROM certificates JOIN keys USING (id) WHERE fingerprint = ?", fpr)
        if row is None:
            return False
        place, octets, user_ids = row
        unverified = self._connection.execute("DELETE FROM verdicts WHERE certificate = ? AND issuer IS NULL", (place,))
        verified = self._connection.execute("UPDATE verdicts SET certificate = NULL, depth = 0 WHERE certificate = ?",
                                            (place,))
        self._connection.execute("DELETE FROM certificates WHERE id = ?", (place,))
        self._loose += verified.rowcount
        self._more.subtract({"certificates": 1, "octets": octets, "user_ids": user_ids, "pending": unverified.rowcount,
                             "signatures": unverified.rowcount + verified.rowcount})
        return True

    def _set_verdict(self, number: bytes, issuer: bytes | None) -> bool:
        by = None if issuer is None else self._key(issuer)
        row = self._one("SELECT certificate, issuer FROM verdicts WHERE number = ?", number)
        before = row[1] if row else None
        if before == by:
            return False
        if row is None:
            self._connection.execute("INSERT INTO verdicts (number, issuer) VALUES (?, ?)", (number, by))
        elif by is None and row[0] is None:
            self._connection.execute("DELETE FROM verdicts WHERE number = ?", (number,))
        else:
            self._connection.execute("UPDATE verdicts SET issuer = ? WHERE number = ?", (by, number))
        more = (by is not None) - (before is not None)
        self._more["verdicts"] += more
        if row is not None and row[0] is not None:
            self._more["pending"] -= more
            if by is None:
                self._have_looked_at(row[0])
        else:
            self._loose += more
        return True
