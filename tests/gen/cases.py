"""Cases of each kind, as lines of a case stream (FORMAT.md)."""

import itertools

import messages
import signs

NUMBER_PARTS = [
    b"", b"+", b"-", b"++", b"0", b"1", b"+0", b"+1", b"-0", b"-1", b"++1", b"+-1", b"00", b"007", b"+007", b"9", b"10",
    b"99", b"100", b"254", b"255", b"256", b"257", b"+255", b"+256", b"0255", b"0256", b"999", b"2550", b"65534",
    b"65535", b"65536", b"65537", b"+65535", b"065535", b"655350", b"99999", b"4294967294", b"4294967295",
    b"4294967296", b"+4294967295", b"04294967295", b"42949672950", b"18446744073709551616", b" 1", b"1 ", b"1+",
    b"1 1", b"\t1", b"1\n", b"1,", b"1.0", b"1_0", b"0x1", b"0b1", b"1e1", b"a", b"A", b"f", b"F", b"g", b"G", b"/",
    b":",
    b"@", b"`", b"\xc2\xb2", b"\xd9\xa1", b"1\xc3\xa9", b"\xe2\x82\xac", b"\xf0\x9d\x9f\x8e", b"\xef\xbc\x91", b"\0",
    b"1\0",
    b"+0FF", b"00FF", b"00ff", b"0fF", b"fF", b"FFFF", b"ffff", b"FfFf", b"10000", b"0FFFF", b"00FFFF", b"+FFFF",
    b"+fff", b"+10000", b"FFFFF", b"+00", b"+000", b"+0000", b"000", b"0000", b"00000", b"abcd", b"ABCD", b"abcg",
    b"-0FF", b"0x1f", b"++FF", b"+0F", b"+0FFF", b"\xc3\xa9\xc3\xa9", b"\xc3\xa9ab", b"ab\xc3\xa9", b"\xf0\x9f\x98\x80",
    b" 0FF", b"0FF ", b"0 FF", b"d800", b"0" * 2047 + b"1", b"0" * 2048, b"+" + b"0" * 2040 + b"9",
    b"0" * 2044 + b"ffff",
    b"0" * 2048 + b"7",
]


def word(data):
    return data.hex() if data else "-"


def number_lines():
    """Every number case of the fixed list."""
    for part in NUMBER_PARTS:
        for bits in (8, 16, 32):
            yield "D %d %s" % (bits, word(part))
        yield "X " + word(part)
        yield "Q " + word(part)


def number_case(rng):
    way = rng.random()
    if way < 0.4:
        part = rng.choice(NUMBER_PARTS[:-5])
    elif way < 0.7:
        part = messages.mutated(rng, rng.choice(NUMBER_PARTS[:-5]))
    elif way < 0.85:
        part = str(rng.getrandbits(rng.choice((4, 8, 9, 16, 17, 32, 33)))).encode()
    elif way < 0.98:
        part = ("%x" % rng.getrandbits(rng.choice((4, 8, 12, 16, 17)))).encode()
        part = part.upper() if rng.random() < 0.4 else part
        part = rng.choice((b"", b"", b"+", b"0")) + part
    else:
        part = rng.choice((b"", b"+")) + b"0" * rng.randint(1, 2048) + rng.choice((b"", b"1", b"255", b"ff"))
    try:
        part.decode("utf-8")
    except UnicodeDecodeError:
        # the Rust's readers take text
        part = part.decode("latin-1").encode("utf-8")
    kind = rng.choice(("D 8", "D 16", "D 32", "X", "Q"))
    return kind + " " + word(part)


def slice_lines(longest=4):
    """Every message of up to so many pieces of a few bytes that matter to the tokenizer."""
    for length in range(longest + 1):
        for pieces in itertools.product((b"[", b"]", b"a"), repeat=length):
            yield "V " + word(b"".join(pieces))


def slice_case(rng):
    return "V " + word(messages.brackets(rng).encode())


def value_case(rng):
    return "V " + word(messages.value_message(rng))


def times_case(rng):
    return "T " + word(messages.times_message(rng))


def sign_block(rng, room):
    """An S line and some cases on it, as (line, is a case)."""
    way = rng.random()
    if way < 0.07:
        plan = signs.make_sign(rng, small=True)
        if rng.random() < 0.004:
            data = signs.full_size_file(rng)
            data = rng.choice((data, data + b"\0"))
        else:
            data = signs.damaged(rng, plan)
        count = rng.randint(1, 5)
    else:
        plan = signs.make_sign(rng, wrong_version=way > 0.985)
        data = plan.data()
        count = rng.randint(5, 25)
    yield "S " + word(data), False
    if rng.random() < 0.3 and room > 1:
        yield "I", True
        room -= 1
    maker = messages.Maker(rng, plan)
    for _ in range(min(count, room)):
        yield "L " + word(maker.message()), True


def options_block(rng, room):
    """An S line of a board with option records, right or wrong, and some cases on it, as (line, is a case)."""
    if rng.random() < 0.06:
        yield from numbered_block(rng, room)
        return
    plan = signs.option_sign(rng, wrong_version=rng.random() < 0.01)
    if rng.random() < 0.65:
        data = signs.damaged_options(rng, plan)
        count = rng.randint(1, 2)
    else:
        data = plan.data()
        count = rng.randint(5, 25)
    yield "S " + word(data), False
    if rng.random() < 0.2 and room > 1:
        yield "I", True
        room -= 1
    maker = messages.OptionMaker(rng, plan, signs.as_typed(plan))
    for _ in range(min(count, room)):
        yield "L " + word(maker.message()), True


def sums_block(rng, room):
    """An S line of a board of wide letters and some cases on it, as (line, is a case)."""
    plan = signs.wide_sign(rng)
    yield "S " + word(plan.data()), False
    maker = messages.SumsMaker(rng, plan)
    for _ in range(min(rng.randint(10, 30), room)):
        yield "L " + word(maker.message()), True


def groups_block(rng, room):
    """An S line of a roomy board and some cases of many groups on it, as (line, is a case)."""
    plan = signs.roomy_sign(rng)
    yield "S " + word(plan.data()), False
    maker = messages.GroupsMaker(rng, plan)
    for _ in range(min(rng.randint(10, 30), room)):
        yield "L " + word(maker.message()), True


def numbered_block(rng, room):
    """An S line of a roomy board with kind 6, and some cases of many groups on it, as (line, is a case)."""
    plan = signs.roomy_sign(rng)
    plan.options = rng.choice([kinds for kinds in signs.option_sets() if signs.model.GROUP_NUMBERS in kinds])
    yield "S " + word(plan.data()), False
    maker = messages.NumberedMaker(rng, plan)
    for _ in range(min(rng.randint(10, 30), room)):
        yield "L " + word(maker.message()), True
