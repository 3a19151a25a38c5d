"""Answers as files that somebody else's engine checks: `tukyamid check FILE`. docs/USING.md describes the file."""
