"""The forms in which the command shows a report: each module has `show(report)`, which returns a text."""

from __future__ import annotations

from ..fast_imports import TYPE_CHECKING

if TYPE_CHECKING:
    from collections.abc import Callable

    from ..keyrings.assessment import Report

FORMS = ("tree", "json", "colons", "dot", "html")


def form(name: str, colour: bool = False) -> Callable[[Report], str]:
    """What shows a report in this form; `colour` is for the tree, on a terminal. Only what is used is imported."""
    if name == "json":
        from . import json_form
        return json_form.show
    if name == "colons":
        from . import colons
        return colons.show
    if name == "dot":
        from . import dot
        return dot.show
    if name == "html":
        from . import html_form
        return html_form.show
    from . import tree
    return tree.Tree(colour).show
