"""The cases as they are written: read from the folder, apart from what writes them."""

import base64
import json
from functools import lru_cache
from pathlib import Path

ROOT = Path(__file__).resolve().parents[3]
INTEROP = ROOT / "interop"
FOLDER = INTEROP / "cases"


@lru_cache(maxsize=1)
def cases():
    """Every case, by its place: group and name."""
    return {f"{file.parent.name}/{file.stem}": json.loads(file.read_text(encoding="utf-8"))
            for file in sorted(FOLDER.glob("*/*.json"))}


def certificates(case):
    return [base64.b64decode(text, validate=True) for text in case["certificates"]]


def user_id(question):
    return bytes.fromhex(question["user_id_hex"]) if "user_id_hex" in question else question["user_id"].encode()
