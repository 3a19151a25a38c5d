"""A keyring that is larger than an engine: each question loads what its reply rests on."""
