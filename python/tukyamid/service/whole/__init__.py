"""A keyring that each engine holds as a whole."""
