"""What `tools/prove` is made of."""
