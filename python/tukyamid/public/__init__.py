"""`tukyamid web --public`: a page and an API for everyone, over the read-only socket of a service. Nothing here can
change anything, and nothing of the operator's own is read but the sets of trust roots that the command names."""
