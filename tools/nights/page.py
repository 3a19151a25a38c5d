"""The page of a night: what was run, what failed, and how to run it again, as HTML and as JSON."""

import html
import json
from dataclasses import asdict
from typing import Any

from .night import FAILED, Night, Part

STYLE = """
body { font: 16px/1.5 system-ui, sans-serif; margin: 2rem auto; max-width: 60rem; padding: 0 1rem; color: #1c1c1c }
table { border-collapse: collapse; width: 100% } th, td { text-align: left; padding: .4rem .6rem; vertical-align: top }
tr { border-bottom: 1px solid #ddd } .passed { color: #1c6b32 } .failed { color: #a3261b } .skipped { color: #6b5a00 }
code, li { overflow-wrap: anywhere } td.seconds { text-align: right; font-variant-numeric: tabular-nums }
"""


def status_of(parts: list[Part]) -> str:
    """Failed if a part failed; else passed, however much was skipped."""
    return FAILED if any(part.status == FAILED for part in parts) else "passed"


def told(night: Night, parts: list[Part], head: dict[str, Any]) -> dict[str, Any]:
    """All that the page says, as values."""
    return {
        **head,
        "status": status_of(parts),
        "seed": night.seed,
        "short": night.is_short,
        "programs": [str(program) for program in night.programs],
        "parts": [asdict(part) for part in parts],
    }


def row(part: dict[str, Any]) -> str:
    items = "".join(f"<li>{html.escape(str(each))}</li>" for each in part["details"])
    more = f"<ul>{items}</ul>" if items else ""
    said = f"{html.escape(part['summary'])}{more}"
    status, seconds = part["status"], f"{part['seconds']:,.0f}"
    begin = f'<tr><td>{html.escape(part["name"])}</td><td class="{status}">{status}</td>'
    return f'{begin}<td>{said}</td><td class="seconds">{seconds}</td></tr>'


def page(values: dict[str, Any]) -> str:
    """The page."""
    machine = values["machine"]
    where = f"{machine['processors']} processors ({machine['processor']}), {machine['memory_mb']:,} MB"
    sort = "A shortened night" if values["short"] else "A whole night"
    again = f"tools/nightly --seed {values['seed']}{' --short' if values['short'] else ''}"
    missing = " ".join(values.get("missing", ()))
    lacks = f"<p>Packages that this machine lacks: <code>{html.escape(missing)}</code></p>\n" if missing else ""
    rows = "\n".join(row(part) for part in values["parts"])
    return f"""<!doctype html>
<html lang="en">
<meta charset="utf-8">
<meta name="viewport" content="width=device-width">
<title>Tukyamid: {values["status"]}, {html.escape(values["begun"])}</title>
<style>{STYLE}</style>
<h1>Tukyamid, {html.escape(values["begun"])}: <span class="{values["status"]}">{values["status"]}</span></h1>
<p>{sort} over commit <code>{html.escape(values["commit"])}</code> on {html.escape(where)}, load
{values["load"]["begin"]} to {values["load"]["end"]}. Again: <code>{html.escape(again)}</code></p>
{lacks}<table>
<tr><th>part</th><th>status</th><th>what it says</th><th>seconds</th></tr>
{rows}
</table>
</html>
"""


def write(night: Night, values: dict[str, Any]) -> None:
    """Writes both files into the night's folder."""
    (night.folder / "night.json").write_text(json.dumps(values, indent=1) + "\n", encoding="utf-8")
    (night.folder / "night.html").write_text(page(values), encoding="utf-8")
