"""Reading answer streams (FORMAT.md)."""

from collections import namedtuple

# line: the case's line; sign: the S line before it or None; answer: its lines
Block = namedtuple("Block", "line sign answer place")

# one step of a listing's answer: head (list of words) and its records' lines
Step = namedtuple("Step", "words records")


class StreamError(Exception):
    """A stream that FORMAT.md does not allow."""


def blocks(lines):
    """The cases of an answer stream with their answers. An answer's lines start with a digit, no other line does."""
    sign = None
    line = None
    answer = []
    place = 0
    count = 0
    ended = False
    first = 0
    for place, text in enumerate(lines, start=1):
        text = text.rstrip("\n")
        if ended:
            raise StreamError("line %d: after the end" % place)
        if place == 1:
            if text != "kambelohi answers 1":
                raise StreamError("line 1: not the head of an answer stream")
            continue
        if text[:1].isdigit():
            if line is None:
                raise StreamError("line %d: an answer without its case" % place)
            answer.append(text)
            continue
        if line is not None:
            yield Block(line, sign, answer, first)
            line = None
        if text[:2] == "S ":
            sign = text
        elif text[:4] == "end ":
            if text != "end %d" % count:
                raise StreamError("line %d: wrong count, %d cases came" % (place, count))
            ended = True
        elif text[:1] in ("D", "X", "Q", "I", "V", "T", "L"):
            line, answer, first = text, [], place
            count += 1
        else:
            raise StreamError("line %d: no line of an answer stream" % place)
    if not ended:
        raise StreamError("line %d: no end" % (place + 1))


def steps(answer):
    """The steps of a listing's answer."""
    found = []
    place = 0
    while place < len(answer):
        words = answer[place].split(" ")
        count = int(words[2]) if words[0] == "1" else 0
        found.append(Step(words, answer[place + 1:place + 1 + count]))
        place += 1 + count
    return found


def outcome(answer):
    """How a listing ends: "accepted", a refusal's number as text, "stops" or "not comparable"."""
    words = steps(answer)[-1].words
    return {"3": "accepted", "5": "stops", "6": "not comparable"}.get(words[0]) or words[1]


def message_of(line):
    word = line.split(" ")[-1]
    return b"" if word == "-" else bytes.fromhex(word)
