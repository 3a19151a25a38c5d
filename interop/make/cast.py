"""The people of the cases. Most have an Ed25519 key of version 4, made on 1 January 2020; these differ:

Rita and Rolf have RSA keys; Vera and Viktor have Ed25519 keys of version 6, and Vroni an RSA key of version 6. Anna,
Boris and Clara made their keys in 2008, when SHA-1 was in use.
"""

from people import Person

alice, bob, carol, dave = map(Person, ("Alice", "Bob", "Carol", "Dave"))
ellen, frank, grace, heidi = map(Person, ("Ellen", "Frank", "Grace", "Heidi"))
rita, rolf = (Person(name, is_rsa=True) for name in ("Rita", "Rolf"))
vera, viktor = (Person(name, version=6) for name in ("Vera", "Viktor"))
vroni = Person("Vroni", version=6, is_rsa=True)
anna, boris, clara = (Person(name, made="2008-01-01") for name in ("Anna", "Boris", "Clara"))
