"""Processes that answer questions beside the service: one keyring, one socket, one that writes."""
