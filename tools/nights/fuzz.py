"""Mutations of what strangers write, and of configurations: readers raise nothing but their refusals, and the verifier
ends by itself and says something of each."""

from .night import FAILED, PASSED, Night, Part, last_line


def fuzz(night: Night) -> Part:
    """A million mutations, by a seed of this night."""
    seed, count = night.drawn("fuzz").randrange(10**9), night.size(1_000_000, 20_000)
    words = [str(night.root / "tests/suites/readers/fuzz"), "--seed", str(seed), "--count", str(count)]
    status, output = night.run("fuzz", words)
    if status:
        return Part("fuzz", FAILED, last_line(output), output.splitlines()[:-1])
    mutations = night.size(40_000, 300)
    words = ["env", f"WOT_MUTATIONS={mutations}", f"WOT_SEED={seed}",
             str(night.root / "tests/suites/verify/run"), "test_mutated"]
    status, verified = night.run("fuzz-verifier", words)
    said = f"{last_line(output)}; the verifier over {mutations} of each kind, {last_line(verified)}"
    return Part("fuzz", PASSED if status == 0 else FAILED, said, verified.splitlines()[-40:-1] if status else [])
