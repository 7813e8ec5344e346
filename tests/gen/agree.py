"""Whether two answers to one case agree, the oracle's and the model's, in either order."""

import re

import streams
from signs import model

# what document 01 gives where the Rust stops, but for [f0]
INSTEAD = ("6", "8", "10", "11", "12", "13", "14")
FIELD_0 = re.compile(rb"\[[fF]\+?0+(,[^\]]*)?\]")


def same_refusal(one, other):
    """Whether two refusal lines agree, `-` standing for anything."""
    return len(one) == len(other) == 5 and all(a == b or "-" in (a, b) for a, b in zip(one, other))


def told(words):
    """An answer's head line in short."""
    if words is None:
        return "nothing"
    heads = {"1": "on", "2": "off", "3": "end", "5": "stops", "6": "not comparable"}
    return heads.get(words[0]) or "refusal " + words[1]


def refuses_field_0(words, message):
    """Whether this is refusal 5 at a [f0]."""
    if words is None or words[:2] != ["4", "5"] or words[2] == "-":
        return False
    start, length = int(words[2]), int(words[3])
    return FIELD_0.fullmatch(message[start:start + length]) is not None


def stands_in(words, sign, message):
    """Whether this is the Rust's refusal of a small letter for which a capital stands in (A4)."""
    if words is None or words[:4] != ["4", "12", "-", "-"]:
        return False
    return int(words[4]) in model.stand_ins(sign, message)


def long_time(message, start, length):
    """Whether the slice at this place is a [pt] with a time above 255, which only long times take (A5)."""
    try:
        value = model.read_value(message, start, length, True)
    except model.Refusal:
        return False
    return value.name == "PageTime" and max(time or 0 for time in value.data) > 255


def waits_for_long_times(words, sign, message):
    """Whether this is the refusal of a [pt] with a time above 255 on a file that takes it."""
    if words is None or words[:2] != ["4", "6"] or "-" in words:
        return False
    return model.LONG_TIMES in options_of(sign) and long_time(message, int(words[2]), int(words[3]))


def options_of(sign):
    """The option records of a sign file; none where it is refused."""
    try:
        return model.read_sign_file(sign).options
    except model.Refusal:
        return []


def compare_listings(one, other, message, sign):
    """None where they agree, a row of the table where one side has no answer, else False."""
    if model.GROUP_NUMBERS in options_of(sign):
        return ("kind 6", "not compared")  # A6: "Only the others compare with the Rust."
    left, right = streams.steps(one), streams.steps(other)
    for place in range(max(len(left), len(right))):
        a = left[place] if place < len(left) else None
        b = right[place] if place < len(right) else None
        a_words, b_words = a and a.words, b and b.words
        if a_words == b_words and a.records == b.records:
            continue
        if a_words and b_words and a_words[0] == b_words[0] == "4" and same_refusal(a_words, b_words):
            continue
        for mine, others in ((a_words, b_words), (b_words, a_words)):
            if mine and mine[0] == "6":
                return (told(mine), told(others))
            if others and stands_in(mine, sign, message):
                return ("refusal 12, a capital stands in", told(others))
            if others and waits_for_long_times(mine, sign, message):
                return ("refusal 6, a time above 255", told(others))
            if refuses_field_0(mine, message) and others and others[0] in ("4", "5"):
                return ("passes over [f0], " + told(others), told(mine))
            if mine and mine[0] == "5" and others and others[0] == "4" and others[1] in INSTEAD:
                return (told(mine), told(others))
        return False
    return None


def compare_values(one, other, message, long_times):
    if len(one) != len(other):
        return False
    stops = None
    for a, b in zip(one, other):
        if a == b:
            continue
        left, right = a.split(" "), b.split(" ")
        if len(left) > 3 and len(right) > 3 and left[:2] == right[:2]:
            for mine, others in ((left, right), (right, left)):
                if mine[2:4] == ["0", "0"] and others[2:4] == ["0", "6"]:
                    stops = ("value stops", "value " + " ".join(others[2:4]))
                    break
                if long_times and mine[2:4] == ["0", "6"] and long_time(message, int(mine[0]), int(mine[1])):
                    stops = ("value 0 6, a time above 255", "value " + others[2])
                    break
            else:
                return False
        else:
            return False
    return stops


def compare_blocks(one, other):
    kind = one.line[0]
    if kind == "L":
        return compare_listings(one.answer, other.answer, streams.message_of(one.line), streams.message_of(one.sign))
    if kind in "VT":
        return compare_values(one.answer, other.answer, streams.message_of(one.line), kind == "T")
    if one.answer == other.answer:
        return None
    return False
