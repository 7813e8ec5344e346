"""An executable reading of document 02, A1: the refusal as a sentence, and the sentence read back.

The words are those of include/kambelohi.h, in quotation marks behind each number."""

import os
import re

HEADER = os.path.join(os.path.dirname(os.path.abspath(__file__)), "..", "..", "include", "kambelohi.h")


def words_of(header):
    """Words by number, of a header's text."""
    return {int(number): text for number, text in re.findall(r'^    KAMBELOHI_\w+ = (\d+),? +/\* "([^"]+)"', header, re.M)}


def words():
    with open(HEADER, encoding="utf-8") as file:
        return words_of(file.read())


def sentence(number, start, length, detail, table):
    '''"Refusal 13 at byte 8, length 2, detail 0: ", decimals without leading zeros, then at most 40 ASCII bytes of words, different for
    each number in use and "unknown" for others, ended by the only full stop.'''
    return "Refusal %d at byte %d, length %d, detail %d: %s." % (number, start, length, detail, table.get(number, "unknown"))


def recovered(text):
    """'From the sentence alone all four can be recovered': number, start, length and detail, or None where the text is no sentence.
    'The number has 8 bits, the others 16.'"""
    decimal = "(0|[1-9][0-9]*)"
    found = re.fullmatch("Refusal %s at byte %s, length %s, detail %s: [ -\\-/-~]{1,40}\\." % ((decimal,) * 4), text)
    if not found:
        return None
    numbers = tuple(int(n) for n in found.groups())
    return numbers if numbers[0] < 2 ** 8 and max(numbers) < 2 ** 16 else None
