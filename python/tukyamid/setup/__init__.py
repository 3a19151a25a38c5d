"""`tukyamid setup`: has other programs ask Tukyamid whether signatures are good."""
