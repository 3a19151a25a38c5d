"""What the page can ask: each call has a name, takes a JSON object and returns one."""

import re
from collections.abc import Awaitable, Callable
from typing import Any

from ..command.exit_statuses import reason_of
from ..command.option_values import MOST_TIME, read_key
from ..protocol.refusals import Refused
from ..protocol.spelling import for_people, write_user_id
from . import beginnings, gone, moments, page_answers, page_plans, page_requests, qr_codes
from .key_pages import KeyPage
from .network_jobs import Networks
from .overview_jobs import Surveys
from .page_requests import Json
from .reach import Reach
from .service_connections import ServiceConnections

MOST_FOUND = 30
LEAST_SOUGHT = 2
MOST_VOUCHED = 100

Call = Callable[[Json], Awaitable[dict[str, Any]]]


class Calls:
    """`begin` is what the page begins with: the roots and the time. `is_own` says that the service is the user's own,
    which keeps keyrings that it is given."""

    def __init__(self, connections: ServiceConnections, surveys: Surveys, begin: page_requests.Standpoint,
                 notes: tuple[str, ...], is_own: bool = False) -> None:
        self._is_own = is_own
        self._connections, self._surveys, self._begin, self._notes = connections, surveys, begin, notes
        self._networks = Networks(connections)
        self._fragile, self._meetings = Surveys(connections, "plan_process"), Surveys(connections, "plan_process")
        self.by_name: dict[str, Call] = {
            "begin": self.begin, "search": self.search, "answer": self.answer, "reasons": self.reasons,
            "moments": self.moments, "changes": self.changes, "overview": self.overview, "proof": self.proof,
            "plan": self.plan, "fragile": self.fragile, "meeting": self.meeting,
            "network": self.network, "others": self.others, "key": self.key, "vouched": self.vouched, "qr": self.qr,
            "gone": self.gone, "life": self.life, "offered": self.offered, "add": self.add,
            "reach": self.reach,
        }

    async def close(self) -> None:
        """Gives up what is under way."""
        self._networks.close()
        for surveys in self._surveys, self._fragile, self._meetings:
            await surveys.close()

    async def begin(self, asked: Json) -> dict[str, Any]:
        """What the page shows first: the roots that it was started with, and what the service holds."""
        async with self._connections.talking() as client:
            figures, waiting = await client.status(), await client.unverified()
        shown = await self._connections.do(lambda keyring: page_answers.standpoint(keyring, self._begin))
        return {**shown, "notes": [*self._notes, *([] if waiting is None else [str(waiting)])],
                "certificates": figures.get("certificates"), "user_ids": figures.get("user-ids")}

    async def search(self, asked: Json) -> dict[str, Any]:
        """User IDs by a part of them, or of a key by its fingerprint or key ID. The first ones alone."""
        sought = page_requests.text(asked, "text", 1000).strip()
        if len(sought) < LEAST_SOUGHT:
            return {"found": [], "more": False}
        key = sought_key(sought)
        found: list[dict[str, str]] = []
        async with self._connections.talking() as client:
            listing = await (client.find("key", key) if key else client.find("first", sought))
            async for one in listing:
                if len(found) == MOST_FOUND:
                    return {"found": found, "more": True}
                found.append({"fingerprint": one.fpr, "user_id": for_people(one.user_id),
                              "spelled": write_user_id(one.user_id)})
        return {"found": found, "more": False}

    async def answer(self, asked: Json) -> dict[str, Any]:
        subject = page_requests.read_subject(asked)
        return await self._connections.do(lambda keyring: page_answers.answer(keyring, subject))

    async def reasons(self, asked: Json) -> dict[str, Any]:
        subject, word = page_requests.read_subject(asked), page_requests.text(asked, "word", 40)
        begin = page_requests.number(asked, "begin", 0, 10**6)
        return await self._connections.do(lambda keyring: page_answers.reasons(keyring, subject, word, begin))

    async def moments(self, asked: Json) -> dict[str, Any]:
        subject = page_requests.read_subject(asked)
        return await self._connections.do(lambda keyring: moments.moments(keyring, subject))

    async def changes(self, asked: Json) -> dict[str, Any]:
        subject, since = page_requests.read_subject(asked), page_requests.number(asked, "since", 0, MOST_TIME)
        return await self._connections.do(lambda keyring: page_answers.changes(keyring, subject, since))

    async def plan(self, asked: Json) -> dict[str, Any]:
        """Which new certifications would raise the amount."""
        subject, by, most = page_requests.read_plan(asked)
        return await self._connections.do(lambda keyring: page_plans.plan(keyring, subject, by, most), True)

    async def fragile(self, asked: Json) -> dict[str, Any]:
        """What rests on a single key or certification, and what ends soon."""
        standpoint, more = page_requests.read_fragile(asked)
        return await self._fragile.ask(standpoint, what="fragile", **more)

    async def meeting(self, asked: Json) -> dict[str, Any]:
        """Who should certify whom at a meeting."""
        standpoint, more = page_requests.read_meeting(asked)
        return await self._meetings.ask(standpoint, what="meeting", **more)

    async def overview(self, asked: Json) -> dict[str, Any]:
        return await self._surveys.ask(page_requests.read_standpoint(asked))

    async def network(self, asked: Json) -> dict[str, Any]:
        return await self._networks.ask(page_requests.read_standpoint(asked), page_requests.read_opened(asked))

    async def others(self, asked: Json) -> dict[str, Any]:
        """Keys that aren't authenticated."""
        begin = page_requests.number(asked, "begin", 0, 10**9)
        return await self._networks.others(page_requests.read_standpoint(asked), begin)

    async def key(self, asked: Json) -> dict[str, Any]:
        fpr, standpoint = page_requests.fingerprint(asked), page_requests.read_standpoint(asked)
        return await self._connections.ask(lambda client: KeyPage(client, fpr, standpoint).summary())

    async def vouched(self, asked: Json) -> dict[str, Any]:
        """Who vouches for a key (`by`), or whom it vouches for (`for`)."""
        fpr, standpoint = page_requests.fingerprint(asked), page_requests.read_standpoint(asked)
        begin = page_requests.number(asked, "begin", 0, 10**9)
        most = page_requests.number(asked, "most", 1, MOST_VOUCHED)
        if page_requests.text(asked, "side", 3) == "for":
            return await self._connections.ask(lambda client: KeyPage(client, fpr, standpoint).vouches_for(begin, most))
        return await self._connections.ask(lambda client: KeyPage(client, fpr, standpoint).vouched_for_by(begin, most))

    async def reach(self, asked: Json) -> dict[str, Any]:
        """How far an answer gets that isn't reached, and where it breaks."""
        subject = page_requests.read_subject(asked)
        return await self._connections.ask(lambda client: Reach(client, subject).reply(), True)

    async def gone(self, asked: Json) -> dict[str, Any]:
        """What would be lost if a key were gone, or how far the network is that says it."""
        fpr, standpoint = page_requests.fingerprint(asked), page_requests.read_standpoint(asked)
        network = await self._networks.whole(standpoint)
        if network is None:
            return {"progress": "looking for what rests on the key"}
        whole = network
        return await self._connections.do(lambda keyring: gone.gone(keyring, whole, fpr), True)

    async def life(self, asked: Json) -> dict[str, Any]:
        """A key's times."""
        fpr = page_requests.fingerprint(asked)
        return await self._connections.do(lambda keyring: moments.life(keyring, fpr))

    async def offered(self, asked: Json) -> dict[str, Any]:
        """What somebody can begin with."""
        time = page_requests.number(asked, "time", 0, MOST_TIME)
        return await self._connections.ask(lambda client: beginnings.offered(client, time, self._is_own))

    async def add(self, asked: Json) -> dict[str, Any]:
        """Has the user's own service keep a keyring."""
        name = page_requests.text(asked, "name", 4096)
        if not self._is_own:
            raise ValueError("this page shows the inputs that were named; start tukyamid web without them to add one")
        return await self._connections.ask(lambda client: beginnings.add(client, name), True)

    async def qr(self, asked: Json) -> dict[str, Any]:
        """A fingerprint as a QR code."""
        return qr_codes.code(page_requests.fingerprint(asked))

    async def proof(self, asked: Json) -> dict[str, Any]:
        """The answer as a file that somebody else can check."""
        from ..proofs.proof_making import make
        subject = page_requests.read_unsupposed(asked)
        return await self._connections.do(lambda keyring: make(
            keyring, subject.fpr, subject.user_id, subject.wanted, subject.standpoint.time,
            dict(subject.standpoint.roots)))


def sought_key(sought: str) -> str | None:
    """The fingerprint or key ID that a text is; None if it is none."""
    if not re.fullmatch(r"(0x)?[0-9a-fA-F\s]{16,}", sought):
        return None
    try:
        return read_key(sought)
    except ValueError:
        return None


def said(failure: Exception) -> str:
    """What the page says of a call that failed."""
    if isinstance(failure, Refused):
        return f"the service refused it: {failure.reply}"
    return str(failure) if isinstance(failure, ValueError) else reason_of(failure)
