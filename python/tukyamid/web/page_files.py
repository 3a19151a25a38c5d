"""The files of the page, all of them known before the server starts: no path of a request reaches the file system."""

from pathlib import Path
from typing import NamedTuple

PAGE = Path(__file__).resolve().parent / "page"
# Where Debian puts d3 (libjs-d3).
D3 = ("/usr/share/javascript/d3/d3.min.js", "/usr/share/nodejs/d3/dist/d3.min.js")
_TYPES = {".html": "text/html", ".css": "text/css", ".js": "text/javascript", ".svg": "image/svg+xml"}


class Served(NamedTuple):
    """A file as it is sent."""
    content_type: str
    octets: bytes


def read_files() -> dict[str, Served]:
    """The files by their names below the token. Without d3 the page says what is missing, and draws nothing."""
    files = {path.name: Served(_TYPES[path.suffix], path.read_bytes())
             for path in PAGE.iterdir() if path.suffix in _TYPES}
    files[""] = files.pop("index.html")
    found = next((path for path in map(Path, D3) if path.is_file()), None)
    files["d3.js"] = Served(_TYPES[".js"], found.read_bytes() if found is not None else b"")
    return files
