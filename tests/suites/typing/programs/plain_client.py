"""A program of a user: the plain clients."""

from tukyamid import Engine, Keyring, Missed, Stale, commands, connect

with Engine() as engine:
    answer = engine.ask("me", "aa" * 20, 120, "Alice")
    reveal_type(answer.amount)  # T: int
    reveal_type(answer.paths[0].steps[0].user_id)  # T: bytes
    for binding in engine.list("me", 120):
        reveal_type(binding)  # T: protocol.replies.Binding
    reveal_type(engine.do(commands.Keys()))  # T: client.listing.Listing[protocol.replies.Key]
    reveal_type(engine.do(commands.Drop("aa" * 20)))  # T: protocol.replies.Done
    absent = engine.do(commands.Absence("me", "aa" * 20, 1, ""))
    reveal_type(absent)  # T: Union[protocol.replies.Reached, protocol.replies.Missed]
    absence = engine.absence("me", "aa" * 20, 120, b"Alice")
    if isinstance(absence, Missed):
        reveal_type(absence.table)  # T: tuple[protocol.claims.Label, ...]
        engine.check("me", "aa" * 20, absence.paths, absence.table, "Alice")
    else:
        absence.table  # E: attr-defined
    for item in engine.list_in_pieces("c", "me", 120):
        if not isinstance(item, Stale):
            reveal_type(item)  # T: protocol.replies.Binding
    engine.ask("me", "aa" * 20, "120", "Alice")  # E: arg-type
    engine.ask("me", "aa" * 20, 120)  # E: call-arg
    engine.status()  # E: attr-defined
    reveal_type(engine.close())  # T: int

with connect("/run/user/1000/tukyamid.socket", timeout=1.5) as service:
    reveal_type(service.keys())  # T: client.listing.Listing[protocol.replies.Key]
    reveal_type(service.status())  # T: dict[str, str]
    reveal_type(next(service.find("address", "a@b")).user_id)  # T: bytes
    service.add_keyring("/a", lambda text: print(text.upper()))
    service.add_keyring("/a", print, 3)  # E: call-arg

Keyring.open(["friends.pgp"])
