"""The signers and what they signed, made once for all tests."""

import gnupg
import signers as making
from files import Files


class Made:
    _made = None

    @classmethod
    def once(cls):
        """The signers and their files, below the folder of `gnupg`."""
        if cls._made is None:
            signers = making.make(gnupg.FOLDER)
            files = Files(signers).make()
            making.finish(signers)
            cls._made = signers, files
        return cls._made
