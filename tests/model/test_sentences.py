"""Tests of the model's sentences: document 02's example, the boundaries, and what its sentences promise."""

import unittest

from sentences import recovered, sentence, words

PLACES = (0, 9, 10, 99, 100, 999, 1000, 9999, 10000, 65535)


class Sentences(unittest.TestCase):
    def setUp(self):
        self.words = words()

    def told(self, *refusal):
        return sentence(*refusal, self.words)

    def test_example(self):
        self.assertEqual(self.told(13, 8, 2, 0), "Refusal 13 at byte 8, length 2, detail 0: text does not fit its rectangle.")

    def test_others_are_unknown(self):
        self.assertEqual(self.told(0, 0, 0, 0), "Refusal 0 at byte 0, length 0, detail 0: unknown.")
        self.assertEqual(self.told(255, 65535, 65535, 65535), "Refusal 255 at byte 65535, length 65535, detail 65535: unknown.")

    def test_numbers_in_use(self):
        self.assertEqual(sorted(self.words), list(range(1, len(self.words) + 1)))
        self.assertGreaterEqual(len(self.words), 16)
        self.assertEqual(len(set(self.words.values()) | {"unknown"}), len(self.words) + 1)

    def test_every_number_is_recovered(self):
        for number in range(256):
            for place in PLACES:
                for refusal in ((number, place, 0, 0), (number, 0, place, 0), (number, 0, 0, place), (number, place, place, place)):
                    text = self.told(*refusal)
                    self.assertLessEqual(len(text), 96)
                    self.assertEqual(text.index("."), len(text) - 1)
                    self.assertEqual(recovered(text), refusal)

    def test_no_sentence(self):
        right = self.told(13, 8, 2, 0)
        for wrong in ("", right[:-1], right + ".", right[1:], right.replace("13", "013"), right.replace("13", "256"),
                      right.replace("13", ""), right.replace("byte 8", "byte 65536"), right.replace("text", "te.xt"),
                      right.replace("rectangle", "rectangle that is too small")):
            self.assertIsNone(recovered(wrong), wrong)


if __name__ == "__main__":
    unittest.main()
