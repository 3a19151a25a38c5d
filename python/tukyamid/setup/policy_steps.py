"""The steps that change Tukyamid's own configuration: what is asked of signers for one program."""

from collections.abc import Callable
from typing import Any

from ..configuration import config_editing, config_file, config_values


class Setting:
    """A change of Tukyamid's own configuration: the policy of a caller is strict, or a folder is among `homes`."""

    def __init__(self, path: str, text: str, is_set: Callable[[Any], bool], put: Callable[[Any], None],
                 drop: Callable[[Any], None]) -> None:
        self._path, self._said, self._is_set, self._put, self._drop = path, text, is_set, put, drop

    def shown(self) -> str:
        return f"in {self._path}:\n    {self._said}"

    def is_done(self) -> bool:
        import tomllib
        text = config_file.read(self._path)
        if text is None:
            return False
        config_values.read_checked(self._path, text)
        return self._is_set(tomllib.loads(text))

    def do(self) -> None:
        if not self.is_done():
            template = None if self._path == config_file.HOST_FILE else config_file.read(config_file.HOST_FILE)
            config_editing.change(self._path, self._put, *([] if template is None else [template]))

    def undo(self) -> None:
        if self.is_done():
            config_editing.change(self._path, self._drop)
            config_editing.remove_if_bare(self._path)


def strict(path: str, caller: str) -> Setting:
    """The policy of a caller is strict."""
    def put(document: Any) -> None:
        callers = document.setdefault("caller", {})
        callers.setdefault(caller, {})["strict"] = True

    def drop(document: Any) -> None:
        table = document["caller"][caller]
        table.remove("strict")
        if not table:
            document["caller"].remove(caller)
        if not document["caller"]:
            document.remove("caller")
    return Setting(path, f"[caller.{caller}] strict = true",
                   lambda table: table.get("caller", {}).get(caller, {}).get("strict") is True, put, drop)


def home(path: str, folder: str) -> Setting:
    """The engine answers about this folder of GnuPG's."""
    def put(document: Any) -> None:
        document.setdefault("homes", []).append(folder)

    def drop(document: Any) -> None:
        document["homes"].remove(folder)
        if not document["homes"]:
            document.remove("homes")
    return Setting(path, f'homes = ["{folder}"]', lambda table: folder in table.get("homes", []), put, drop)
