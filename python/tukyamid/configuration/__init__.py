"""The configuration file: the user's own trust roots, and what is asked of signers. docs/CLIENTS.md has its keys."""
