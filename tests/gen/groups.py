"""The groups of a listing's records, from sign file and message, and where their spans must stand.

'Spans of one pass sharing page justification, line and line justification form a group.' Passes and groups are the model's; how far
apart spans stand is checked on the records, as demand 3 says it, and not by the model's way of placing."""

from collections import namedtuple

from signs import model

# a listed span with its record and the spacing due before it, None for its group's first
Stood = namedtuple("Stood", "span record due")


def without(data, kind):
    """The sign file without its option record of this kind."""
    record = b"\0\0" + kind.to_bytes(2, "little")
    place = 19
    while data[place:place + 4] != record:
        place += 4
    return data[:place] + data[place + 4:]


def groups(data, message):
    """(sign, the spans of a group in order) of each group of the listed pages of a message, on an accepted file."""
    sign = model.read_sign_file(data)
    answers = model.listing(data, message)
    shown = [answer.records for answer in answers if isinstance(answer, model.On)]
    if not shown:
        return
    state = model.State(sign)
    for page, records in zip(model.pages_of(model.items_of(message, model.LONG_TIMES in sign.options)), shown):
        records = iter(records)
        for rectangle, spans in model.passes(sign, page, state):
            by_group = {}
            placed = model.Pass(sign, rectangle, spans)
            for span in spans:
                group = by_group.setdefault((span.just_page, span.line, span.just_line), [])
                due = placed.spacing_due(group[-1].span, span) if group else None
                group.append(Stood(span, next(records), due))
            for group in by_group.values():
                yield sign, rectangle, group


def rises(group):
    """The premise of demand 3: the span numbers of the group rise strictly."""
    return all(one.record.span < other.record.span for one, other in zip(group, group[1:]))


def apart(sign, group):
    """Whether neighbours of the group stand the due spacing apart; None where a centred line is rounded to the character grid."""
    if group[0].span.just_line == 3 and sign.char_width > 1:
        return None
    return all(one.record.x + one.record.width + other.due == other.record.x for one, other in zip(group, group[1:]))
