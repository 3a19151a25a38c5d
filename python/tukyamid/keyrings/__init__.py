"""Keyrings to ask: engines with what files and directories hold, verified, and the one that the service keeps."""
