"""Answers the calls of the page, over a keyring that can't be changed."""

from __future__ import annotations

from collections.abc import Callable
from typing import Any, NamedTuple

from ..command.option_values import MOST_TIME
from ..proofs.proof_making import make
from ..protocol.spelling import for_people, write_user_id
from ..web import gone, moments, page_answers, page_plans, page_requests, qr_codes
from ..web.key_pages import KeyPage
from ..web.names import Names
from ..web.network import Network
from ..web.network_jobs import MOST_LISTED
from ..web.network_picture import Picture, Tree
from ..web.page_calls import LEAST_SOUGHT, MOST_FOUND, MOST_VOUCHED, sought_key
from ..web.page_requests import Json, Standpoint
from ..web.reach import Reach
from .answering import Answering


class Whole(NamedTuple):
    """The network from a standpoint, which is kept until another one is asked for."""
    of: object
    tree: Tree


def ask_page(answering: Answering, call: str, asked: Json) -> dict[str, Any]:
    """The reply to a call of the page; ValueError if the question is wrong."""
    return _CALLS[call](answering, asked)


def _begin(answering: Answering, asked: Json) -> dict[str, Any]:
    at, keyring = asked["time"], answering.keyring
    sets = [{"name": name, "roots": page_answers.standpoint(keyring, Standpoint(at, roots))["roots"]}
            for name, roots in asked["sets"]]
    figures, waiting = answering.client.status(), answering.waiting
    return {"time": at, "roots": sets[0]["roots"] if sets else [], "sets": sets,
            "notes": [] if waiting is None else [str(waiting)],
            "certificates": figures.get("certificates"), "user_ids": figures.get("user-ids")}


def _search(answering: Answering, asked: Json) -> dict[str, Any]:
    sought = page_requests.text(asked, "text", 1000).strip()
    if len(sought) < LEAST_SOUGHT:
        return {"found": [], "more": False}
    key = sought_key(sought)
    found = [{"fingerprint": one.fpr, "user_id": for_people(one.user_id), "spelled": write_user_id(one.user_id)}
             for one in answering.client.find(*(("key", key) if key else ("first", sought)))]
    return {"found": found[:MOST_FOUND], "more": len(found) > MOST_FOUND}


def _answer(answering: Answering, asked: Json) -> dict[str, Any]:
    return page_answers.answer(answering.keyring, page_requests.read_subject(asked))


def _reasons(answering: Answering, asked: Json) -> dict[str, Any]:
    subject, word = page_requests.read_subject(asked), page_requests.text(asked, "word", 40)
    return page_answers.reasons(answering.keyring, subject, word, page_requests.number(asked, "begin", 0, 10**6))


def _moments(answering: Answering, asked: Json) -> dict[str, Any]:
    return moments.moments(answering.keyring, page_requests.read_subject(asked))


def _changes(answering: Answering, asked: Json) -> dict[str, Any]:
    subject, since = page_requests.read_subject(asked), page_requests.number(asked, "since", 0, MOST_TIME)
    return page_answers.changes(answering.keyring, subject, since)


def _page_of(answering: Answering, asked: Json) -> KeyPage:
    return KeyPage(answering.client, page_requests.fingerprint(asked), page_requests.read_standpoint(asked))


def _key(answering: Answering, asked: Json) -> dict[str, Any]:
    return _page_of(answering, asked).summary()


def _vouched(answering: Answering, asked: Json) -> dict[str, Any]:
    begin, most = page_requests.number(asked, "begin", 0, 10**9), page_requests.number(asked, "most", 1, MOST_VOUCHED)
    page = _page_of(answering, asked)
    is_for = page_requests.text(asked, "side", 3) == "for"
    return page.vouches_for(begin, most) if is_for else page.vouched_for_by(begin, most)


def _reach(answering: Answering, asked: Json) -> dict[str, Any]:
    return Reach(answering.client, page_requests.read_subject(asked)).reply()


def _life(answering: Answering, asked: Json) -> dict[str, Any]:
    return moments.life(answering.keyring, page_requests.fingerprint(asked))


def _qr(answering: Answering, asked: Json) -> dict[str, Any]:
    return qr_codes.code(page_requests.fingerprint(asked))


def _plan(answering: Answering, asked: Json) -> dict[str, Any]:
    return page_plans.plan(answering.keyring, *page_requests.read_plan(asked))


def _proof(answering: Answering, asked: Json) -> dict[str, Any]:
    subject = page_requests.read_unsupposed(asked)
    return make(answering.keyring, subject.fpr, subject.user_id, subject.wanted, subject.standpoint.time,
                dict(subject.standpoint.roots))


def _tree(answering: Answering, standpoint: Standpoint) -> Tree:
    of = standpoint.time, tuple(standpoint.roots.items())
    if answering.whole is None or answering.whole.of != of:
        answering.whole = None
        network = Network(standpoint)
        network.gather(answering.client)
        answering.whole = Whole(of, Tree(network))
    return answering.whole.tree


def _network(answering: Answering, asked: Json) -> dict[str, Any]:
    tree = _tree(answering, page_requests.read_standpoint(asked))
    network, drawn = tree.network, Picture(tree, page_requests.read_opened(asked)).drawn()
    return {**drawn, **network.counts(), "asked": network.asked, "total": network.total, "done": True}


def _others(answering: Answering, asked: Json) -> dict[str, Any]:
    begin = page_requests.number(asked, "begin", 0, 10**9)
    others = _tree(answering, page_requests.read_standpoint(asked)).network.others
    sought, names = others[begin:begin + MOST_LISTED], Names(answering.keyring)
    names.note(*sought)
    return {"count": len(others), "begin": begin, "keys": sought, "names": names.found}


def _gone(answering: Answering, asked: Json) -> dict[str, Any]:
    fpr, tree = page_requests.fingerprint(asked), _tree(answering, page_requests.read_standpoint(asked))
    return gone.gone(answering.keyring, tree.network, fpr)


_CALLS: dict[str, Callable[[Answering, Json], dict[str, Any]]] = {
    "begin": _begin, "search": _search, "answer": _answer, "reasons": _reasons, "moments": _moments,
    "changes": _changes, "key": _key, "vouched": _vouched, "reach": _reach, "life": _life, "qr": _qr,
    "proof": _proof, "network": _network, "others": _others, "gone": _gone, "plan": _plan}
