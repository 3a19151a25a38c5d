"""What a trial verifies: a text that is also a git commit, a signature on it, and one by a stranger.

The keys were made for this alone, and their secret parts were thrown away. No user's keyring has them.
"""

from base64 import b64decode

FINGERPRINT = "17675da50e68b66a5bf2df3dabcf5cb800b761e7"
DATA = b"""\
tree 4b825dc642cb6eb9a060e54bf8d69288fbee4904
author Tukyamid <trial@tukyamid.invalid> 1700000000 +0000
committer Tukyamid <trial@tukyamid.invalid> 1700000000 +0000

A trial of tukyamid doctor
"""
ARMORED = b"""\
-----BEGIN PGP SIGNATURE-----

iI0EABYIADUWIQQXZ12lDmi2alvy3z2rz1y4ALdh5wUCZVPxARccdHJpYWxAdHVr
eWFtaWQuaW52YWxpZAAKCRCrz1y4ALdh56+9AQDyIXmL4/XYlxheK+Ig5XRvaAXw
TEhGNfMdHnty5en1uAD9Fg6rsUhsY04trvETQJHj3LSWTzhavQV9F2Z87Hxy3Qk=
=DDRJ
-----END PGP SIGNATURE-----
"""
KEY = b64decode("""
mDMEZVPxABYJKwYBBAHaRw8BAQdAEoyBBRBQhHURviGTqR3gpZ1t4kDDfyQwxiQcVyicDCu0J1R1a3lhbWlkIHRyaWFsIDx0cmlh
bEB0dWt5YW1pZC5pbnZhbGlkPoiQBBMWCAA4FiEEF2ddpQ5otmpb8t89q89cuAC3YecFAmVT8QACGwMFCwkIBwIGFQoJCAsCBBYC
AwECHgECF4AACgkQq89cuAC3YefdHwD+Pqnvv0WYna2aaHp/uVHNRJuxoxzGcDmJWGvtDxpZsd4A+gLlxeLSHP3VMtJPI4Uxbsgr
ECSw1en3ABReAuQPGzcD
""")
STRANGERS_KEY = b64decode("""
mDMEZVPxABYJKwYBBAHaRw8BAQdAlExUtZJLv9xW1lqrPIqyjuu9urQbYockPvi40df935+0NVR1a3lhbWlkIHRyaWFsJ3Mgc3Ry
YW5nZXIgPHN0cmFuZ2VyQHR1a3lhbWlkLmludmFsaWQ+iJAEExYIADgWIQTkuapGa59XVqnABHWXRm2UpqsH6AUCZVPxAAIbAwUL
CQgHAgYVCgkICwIEFgIDAQIeAQIXgAAKCRCXRm2UpqsH6LX3AQDLOBjss/Njin7q+6zxD89sMqoMJKhdWqTFA6A2Wd+SWAD/TUFD
X49UhYwWde8hKhJV9zWxnOuWgOo/zebshHs0ggs=
""")
STRANGERS_SIGNATURE = b64decode("""
iJAEABYIADgWIQTkuapGa59XVqnABHWXRm2UpqsH6AUCZVPxARocc3RyYW5nZXJAdHVreWFtaWQuaW52YWxpZAAKCRCXRm2UpqsH
6Kh4AP9VDldu4XuMysOQIJkCrBfYD6AI5zONgX9P+ux/uzvpwQEAsZWnGILbt8eC1lJkwtqm5fHdH/3KzHiChecPRTc2oww=
""")
