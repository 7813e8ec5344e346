"""What the option records of sign files (document 02) and the listings on them are like, in words that are counted."""

import itertools
import re

import groups
import signs
from signs import model

KINDS = (4, 5, 6)


def records(data):
    """(offset, kind, length of its body, whether it is whole) of the records up to the first that is cut short."""
    found = []
    offset = 0
    while offset + 4 <= len(data):
        size, kind = model.little(data[offset:offset + 2]), model.little(data[offset + 2:offset + 4])
        found.append((offset, kind, size, offset + 4 + size <= len(data)))
        offset += 4 + size
    return found


def refused(data, start):
    """Why a sign file is refused at this offset, as far as it is about options; None where it is not."""
    seen = set()
    for offset, kind, size, whole in records(data):
        if offset == start:
            if kind not in KINDS:
                return "a fault behind options in their place" if seen else None
            if not whole:
                return "kind %d, cut short" % kind
            if size:
                return "kind %d, with a body" % kind
            return "kind %d, %s" % (kind, "twice" if kind in seen else "elsewhere")
        seen |= {kind} & set(KINDS)
    return "a fault behind options in their place" if seen else None


def of_capitals(sign, message, records_shown, ending):
    """A4."""
    used = model.stand_ins(sign, message)
    yield "a capital stands in" if used else "no capital stands in"
    if ending[0] == "4" and ending[1] == "12" and 97 <= int(ending[4]) <= 122:
        yield "12 of a letter that has neither form"
    fonts = model.read_sign_file(sign).fonts
    for kind, start, length, code, *_, font in (record[:9] for record in records_shown):
        have = fonts[font].characters
        if kind == 1 and 97 <= code <= 122 and code not in have:
            yield "a capital stands in for an [hc]"
        typed = [code] if kind == 1 else [ord(letter) for letter in message[start:start + length].decode("utf-8")]
        if any(97 <= code <= 122 and code in have and code - 32 in have for code in typed):
            yield "a small letter beside its capital"


def of_times(sign, message, steps):
    """A5: what the listed pages' times are, and what the [pt] is that refuses the message."""
    times = [int(step.words[1]) for step in steps if step.words[0] in "12"]
    yield "long times, a time above 255" if max(times, default=0) > 255 else "long times, none above 255"
    for step in steps:
        if step.words[0] in "12" and step.words[1] == "65535":
            yield "long times, %s 65535" % ("on" if step.words[0] == "1" else "off")
    yield from at_page_time(message, steps[-1].words, "long times, [pt] above 65535 refused")


def at_page_time(message, ending, words):
    """The words, where the listing ends with refusal 6 at a [pt] of decimal numbers."""
    if ending[:2] == ["4", "6"]:
        start, length = int(ending[2]), int(ending[3])
        if re.fullmatch(rb"\[pt(\+?[0-9]+)?(o\+?[0-9]*)?\]", message[start:start + length].lower()):
            yield words


def mixes():
    """Every mix of [jl], [jp], [nl] and [tr] in which a group can be numbered otherwise than without kind 6: it has a [jl] or a [jp]."""
    for count in (1, 2, 3, 4):
        for names in itertools.combinations(("jl", "jp", "nl", "tr"), count):
            if names[0] in ("jl", "jp"):
                yield names


def mix_of(message):
    return tuple(name for name in ("jl", "jp", "nl", "tr") if b"[" + name.encode() in message.lower())


def of_groups(data, message, ending):
    """A6: whether the listing is another than without kind 6, with which mix of tags where it comes to its end, and what refusal 8
    counted."""
    plain = model.listing_answer(groups.without(data, model.GROUP_NUMBERS), message)
    with_record = model.listing_answer(data, message)
    yield "groups, %s without kind 6" % ("as" if plain == with_record else "otherwise than")
    if plain != with_record and ending[0] == "3":
        yield "groups, listed otherwise with " + " ".join(mix_of(message))
    if ending[:2] == ["4", "8"]:
        start, length = int(ending[2]), int(ending[3])
        if message[start:start + 3].lower() != b"[nl":
            yield "groups, 8 at a group's 256th span"
        else:
            yield "groups, 8 at a line end" if plain[-1] == " ".join(ending) else "groups, 8 at an empty span"
    for _, _, group in groups.groups(data, message):
        starts = [stood.record.start for stood in group]
        if len(group) > 1 and b"[jp" in message[starts[0]:starts[-1]].lower():
            yield "groups, left and come back to"
        if len(group) > 1 and any(stood.record.kind == model.EMPTY for stood in group):
            yield "groups, an empty span among others"


def features(data, message, steps):
    """What a listing has of options; data is the sign file, steps the listing's answer."""
    ending = steps[-1].words
    try:
        sign = model.read_sign_file(data)
    except model.Refusal as refusal:
        why = refused(data, refusal.start)
        return {why} if why else set()
    if not sign.options:
        return set()
    found = {"options %s" % " ".join(str(kind) for kind in sign.options)}
    shown = [[int(number) for number in line.split(" ")] for step in steps for line in step.records]
    if model.CAPITALS in sign.options:
        found |= set(of_capitals(data, message, shown, ending))
    if model.LONG_TIMES in sign.options:
        found |= set(of_times(data, message, steps))
    else:
        found |= set(at_page_time(message, ending, "[pt] above 255 refused without kind 5"))
    if model.GROUP_NUMBERS in sign.options:
        found |= set(of_groups(data, message, ending))
    return found


def wanted():
    """What a stream of listings with options must have."""
    found = ["options " + " ".join(str(kind) for kind in kinds) for kinds in signs.option_sets()]
    found += ["kind %d, %s" % (kind, why) for kind in model.OPTIONS for why in ("cut short", "with a body", "twice", "elsewhere")]
    found += ["kind %d, elsewhere" % kind for kind in KINDS if kind not in model.OPTIONS]
    found += ["a fault behind options in their place"]
    found += ["no capital stands in", "a capital stands in", "a capital stands in for an [hc]", "a small letter beside its capital",
              "12 of a letter that has neither form"]
    found += ["long times, none above 255", "long times, a time above 255", "long times, on 65535", "long times, off 65535",
              "long times, [pt] above 65535 refused", "[pt] above 255 refused without kind 5"]
    found += ["groups, as without kind 6", "groups, otherwise than without kind 6", "groups, 8 at a group's 256th span",
              "groups, 8 at an empty span", "groups, 8 at a line end", "groups, left and come back to",
              "groups, an empty span among others"]
    found += ["groups, listed otherwise with " + " ".join(names) for names in mixes()]
    return found
