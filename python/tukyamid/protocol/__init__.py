"""The protocol of the engine and of the service: commands, replies and refusals, as types and as lines."""
