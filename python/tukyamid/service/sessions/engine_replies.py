"""What the engines say to a line that the service itself sends for a client."""

from __future__ import annotations

import asyncio

from .session import Session


async def asked(session: Session, line: bytes, is_change: bool, noted: bytes | None = None) -> bytes | None:
    """What the engines say to a line."""
    answered: asyncio.Future[bytes | None] = asyncio.get_running_loop().create_future()

    def done(reply: bytes | None, count: int) -> None:
        if not answered.done():
            answered.set_result(reply)

    def begun() -> None:
        if noted is not None:
            (session.line_intake.note_change if is_change else session.line_intake.note)(session.number, noted)

    if is_change:
        session.line_intake.change(line, session.actor, done, begun)
    else:
        begun()
        session.line_intake.ask(line, done)
    return await answered
