"""A client of Tukyamid, the OpenPGP web of trust engine: how confident can I be that this user ID belongs to this key?

`Engine` starts the program and speaks its protocol; `client.connect` speaks the same with a running service, and
`client.aio` has both for asyncio. `protocol` has a type for each command, reply and refusal. `Keyring` fills an engine
from keyring files, and keeps what was verified.

A name is imported from its module when it is first used, so that the command starts faster.
"""

from .fast_imports import TYPE_CHECKING
from .version import VERSION as __version__

if TYPE_CHECKING:
    from .client import Client, connect
    from .client.engine import Engine, Listing
    from .configuration.config_values import own_roots
    from .keyrings.keyring import Keyring
    from .keyrings.verified_cache import Store
    from .keyrings.verifier import VerifierFailed
    from .openpgp.addresses import address
    from .planning.plan_making import plan_for
    from .planning.plan_types import Target
    from .planning.scratch import supposing
    from .planning.suppositions import Certifies, Revokes, WithoutKey, WithoutSignature
    from .protocol import commands
    from .protocol.claims import Claim, ClaimedStep, Label
    from .protocol.refusals import (EngineEnded, EngineMissing, ProtocolError, Refused, ServiceEnded, ServiceForeign,
                                    ServiceMissing, TukyamidError)
    from .protocol.replies import (Accepted, Answer, Binding, Done, Explanation, Exported, Gone, Key, Missed, Path,
                                   PendingSignature, Reached, Reason, Rejected, Reply, Stale, Step, Stored, Taken,
                                   Watched)
    from .protocol.script_reader import read_command
    from .protocol.spelling import for_people, read_user_id, write_user_id

_HOMES = {
    "client": "Client connect",
    "client.engine": "Engine Listing",
    "configuration.config_values": "own_roots",
    "keyrings.keyring": "Keyring",
    "keyrings.verified_cache": "Store",
    "keyrings.verifier": "VerifierFailed",
    "openpgp.addresses": "address",
    "planning.plan_making": "plan_for",
    "planning.plan_types": "Target",
    "planning.scratch": "supposing",
    "planning.suppositions": "Certifies Revokes WithoutKey WithoutSignature",
    "protocol.claims": "Claim ClaimedStep Label",
    "protocol.commands": "commands",
    "protocol.refusals": "EngineEnded EngineMissing ProtocolError Refused ServiceEnded ServiceForeign ServiceMissing "
                         "TukyamidError",
    "protocol.replies": "Accepted Answer Binding Done Explanation Exported Gone Key Missed Path PendingSignature "
                        "Reached Reason Rejected Reply Stale Step Stored Taken Watched",
    "protocol.script_reader": "read_command",
    "protocol.spelling": "for_people read_user_id write_user_id",
}
_HOME_OF = {name: home for home, names in _HOMES.items() for name in names.split()}

__all__ = [
    "Accepted", "Answer", "Binding", "Certifies", "Claim", "ClaimedStep", "Client", "Done", "Engine",
    "EngineEnded", "EngineMissing", "Explanation", "Exported", "Gone", "Key", "Keyring", "Label", "Listing",
    "Missed", "Path", "PendingSignature", "ProtocolError", "Reached", "Reason", "Refused", "Rejected", "Reply",
    "Revokes", "ServiceEnded", "ServiceForeign", "ServiceMissing", "Stale", "Step", "Store", "Stored", "Taken",
    "Target", "TukyamidError", "VerifierFailed", "Watched", "WithoutKey", "WithoutSignature", "__version__",
    "address", "commands", "connect", "for_people", "own_roots", "plan_for", "read_command", "read_user_id",
    "supposing", "write_user_id",
]

if not TYPE_CHECKING:
    def __getattr__(name):
        home = _HOME_OF.get(name)
        if home is None:
            raise AttributeError(f"module {__name__!r} has no attribute {name!r}")
        import importlib
        module = importlib.import_module(f".{home}", __name__)
        value = globals()[name] = module if home.endswith(f".{name}") else getattr(module, name)
        return value
