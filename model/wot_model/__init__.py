"""The plain machine: an independent model of the engine, written from docs/PROFILE.md and docs/PROTOCOL.md.

It shares nothing with the program. It keeps no networks and no indexes: each question is answered from certificates,
verdicts and views alone. It is meant to be read beside the two documents, and to be compared with the program.
"""
