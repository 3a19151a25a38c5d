"""`tukyamid verify`: are these data signed by whom they should be?

The verifier checks the signatures on the data, and the engine answers whether their signers are those who are wanted,
at the time of signing and now.
"""
