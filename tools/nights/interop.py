"""The suite of cases for any engine: Tukyamid answers each as expected, and the differences of others have reasons."""

import sys

from .night import FAILED, PASSED, Night, Part, last_line

PAGE = "docs/interop.html"


def interop(night: Night) -> Part:
    """All cases with all variants by Tukyamid, and then all cases by every engine that is installed, with the page."""
    runner = ["env", f"TUKYAMID_ENGINE={night.programs[0]}", sys.executable, str(night.root / "interop/run")]
    runner += ["--jobs", str(night.jobs), *(["--cases", "amounts/*"] if night.is_short else [])]
    status, output = night.run("interop-tukyamid", [*runner, "--strict", "--mutations", "--", "tukyamid"])
    if status:
        return Part("interop", FAILED, f"Tukyamid: {last_line(output)}", output.splitlines()[-20:])
    page = night.folder / "interop.html"
    status, output = night.run("interop", [*runner, "--mutations", "1", "--page", str(page)], hours=6)
    if status:
        return Part("interop", FAILED, last_line(output), output.splitlines()[-20:])
    kept = night.root / PAGE
    is_kept = night.is_short or kept.exists() and page.read_bytes() == kept.read_bytes()
    return Part("interop", PASSED, last_line(output), [] if is_kept else [f"{PAGE} is another: copy {page} there"])
