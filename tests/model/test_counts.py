"""Tests of the model's counts: document 02, A9, on board P of document 01."""

import unittest

from counts import counts
from test_model import BOARD_P, configuration, font, record


class Counts(unittest.TestCase):
    def counted(self, message):
        return counts(BOARD_P, message.encode())

    def test_a_page(self):
        self.assertEqual(self.counted(""), [(0, 0), (0, 0)])
        self.assertEqual(self.counted("AB"), [(2, 1), (0, 0)])
        self.assertEqual(self.counted("A[sc4]B"), [(2, 2), (0, 0)])

    def test_what_prints(self):
        # an empty line prints nothing, [[ and an [hc] one character each
        self.assertEqual(self.counted("[nl]AB[[[hc41][tr1,1,0,0]A"), [(5, 5), (0, 0)])

    def test_off_and_end(self):
        self.assertEqual(self.counted("[pt10o5]AB[np]B"), [(2, 1), (0, 0), (1, 1), (0, 0), (0, 0)])

    def test_refused(self):
        self.assertEqual(self.counted("AC"), [(0, 0)])
        self.assertEqual(self.counted("AB[np][tr1,1,12,7]AB"), [(2, 1), (0, 0)])
        self.assertEqual(self.counted("AB[tr1,1,12,7]AB"), [(0, 0)])

    def test_stand_ins(self):
        # A4: a letter for which a capital stands in is one
        self.assertEqual(counts(configuration() + record(4, b"") + font(), b"aB[hc62]"), [(3, 2), (0, 0)])


if __name__ == "__main__":
    unittest.main()
