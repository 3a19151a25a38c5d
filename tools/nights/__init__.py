"""The parts of `tools/nightly`, one module each, and what they share: a night, a part's result and the page."""
