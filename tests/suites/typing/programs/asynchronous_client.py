"""A program of a user: the asynchronous clients."""

import asyncio

from tukyamid import Answer
from tukyamid.client import aio


async def ask(service: aio.Client, fprs: list[str]) -> list[Answer]:
    reveal_type(await service.ask("me", fprs[0], 120, "Alice"))  # T: protocol.replies.Answer
    return await asyncio.gather(*(service.ask("me", fpr, 120, "Alice") for fpr in fprs))


async def main() -> None:
    async with await aio.connect("/run/user/1000/tukyamid.socket") as service:
        async for key in await service.keys():
            reveal_type(key)  # T: protocol.replies.Key
        for key in await service.keys():  # E: attr-defined
            pass
        reveal_type(await service.export("aa" * 20))  # T: bytes
        reveal_type(await service.status())  # T: dict[str, str]
        service.export("aa" * 20).hex()  # E: attr-defined
        await ask(service, ["aa" * 20])
    async with await aio.start() as engine:
        await ask(engine, [])  # E: arg-type
        reveal_type(await engine.close())  # T: int


asyncio.run(main())
