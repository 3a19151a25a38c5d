"""Who reads slowly is dropped for what the log grows meanwhile, and not for how large it was before."""

import unittest

from tukyamid.service.storage.log_growth import LogGrowth


class Growth(unittest.TestCase):
    def grown(self, *looks):
        log = LogGrowth()
        return [log.grown(octets, is_read) for octets, is_read in looks]

    def test_a_large_log_that_nobody_makes_larger(self):
        self.assertEqual(self.grown((200, False), (200, True), (200, True)), [0, 0, 0])

    def test_it_grows_while_it_is_read(self):
        self.assertEqual(self.grown((10, False), (40, True), (90, True), (90, False), (95, True)), [0, 30, 80, 0, 5])

    def test_it_is_begun_anew_while_it_is_read(self):
        self.assertEqual(self.grown((200, False), (5, True), (70, True)), [0, 0, 65])
