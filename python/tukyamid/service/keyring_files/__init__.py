"""Keyring files, certificate directories and gpg keyrings that the service keeps up with."""
