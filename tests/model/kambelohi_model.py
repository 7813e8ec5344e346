"""An executable reading of documents 01 and 02: message bytes in, placed text out.

Written from the words of document 01; the sentence that a rule comes from stands in quotes beside it. Where document
01 says "as in the Rust", or names a function of it, the rule of that function is taken. Whole numbers throughout:
"Sums are whole numbers (the Rust stops where 16 bits overflow)." A rule of document 02 names its request, as A4.

The parts follow the document: number readers, slices, values, sign file, measure, pages, passes, placing, listing.
"""

import re
from collections import namedtuple

LONGEST_MESSAGE = 2048      # "2. The message is longer than 2,048 bytes."
LONGEST_SIGN_FILE = 65535   # "65,535 bytes in all"
MOST_FONTS = 24             # "At most 24 fonts with distinct numbers,"
MOST_CHARACTERS = 256       # "256 characters each"
MOST_PASSES = 50            # "15. The page's 51st pass has been placed."
MOST_NUMBERED = 255         # "8. The 256th line end or span since its number restarted"


class Refusal(Exception):
    """'A refusal holds number, start, length and detail (zeros unless said)'"""

    def __init__(self, number, start=0, length=0, detail=0):
        Exception.__init__(self, number, start, length, detail)
        self.number = number
        self.start = start
        self.length = length
        self.detail = detail


# ---------------------------------------------------------------------------------------------- number readers

def read_digits(part, base, largest):
    """'one leading + allowed, leading zeros allowed, empty or a lone + refused, too large refused'"""
    digits = part[1:] if part[:1] == b"+" else part
    if not digits:
        return None
    alphabet = b"0123456789abcdef"[:base]
    number = 0
    for byte in digits.lower():  # "Hexadecimal takes both letter cases."; on bytes, lower() touches A to Z alone
        digit = alphabet.find(byte)
        if digit < 0:
            return None
        number = number * base + digit
    return number if number <= largest else None


def read_decimal(part, bits):
    """Rust's unsigned `parse`: the number, or None."""
    return read_digits(part, 10, 2 ** bits - 1)


def read_hexadecimal(part):
    """Rust's `u16::from_str_radix(_, 16)`: the number, or None."""
    return read_digits(part, 16, 0xFFFF)


def read_version_id(part):
    """'A version id is exactly four bytes, so "+0FF" reads as hexadecimal FF.'"""
    return read_hexadecimal(part) if len(part) == 4 else None


# ----------------------------------------------------------------------------------------------------- slices

def slice_end(message, start):
    """Where the slice that begins at start ends (`MultiStr::next_slice`)."""
    if message[start:start + 2] in (b"[[", b"]]"):
        return start + 2  # "A leading [[ or ]] is a slice of two bytes."
    ends = [len(message)]  # "where none comes, it runs to the message's end"
    opening = message.find(b"[", start + 1)
    if opening >= 0:
        ends.append(opening)  # "ends before the next [ that is not its first byte"
    closing = message.find(b"]", start)
    if closing >= 0:
        if message[start:start + 1] == b"[":
            ends.append(closing + 1)  # "a slice that starts with [ ends after the first ]"
        else:
            # "any other slice ends before a ], or is that ] alone"
            ends.append(closing if closing > start else closing + 1)
    return min(ends)  # "The earliest of these ends it"


def slices(message):
    """The places (start, length) of the slices. 'The slices joined are the message.'"""
    places = []
    start = 0
    while start < len(message):
        end = slice_end(message, start)
        places.append((start, end - start))
        start = end
    return places


# ----------------------------------------------------------------------------------------------------- values

# A value: its name in `enum Value`, its numbers as FORMAT.md writes them, and what a listing needs of it (data).
Value = namedtuple("Value", "name numbers data")

NAMES = [
    "ColorBackground", "ColorForeground", "ColorRectangle", "Field", "Flash", "FlashEnd", "Font", "Graphic",
    "HexadecimalCharacter", "JustificationLine", "JustificationPage", "ManufacturerSpecific",
    "ManufacturerSpecificEnd", "MovingText", "NewLine", "NewPage", "PageBackground", "PageTime", "SpacingCharacter",
    "SpacingCharacterEnd", "Text", "TextRectangle",
]
CODES = {name: place + 1 for place, name in enumerate(NAMES)}

# The bits of `enum Tag`.
BITS = {
    "cb": 0, "cf": 1, "fl": 2, "fo": 3, "g": 4, "hc": 5, "jl": 6, "jp": 7, "ms": 8, "mv": 9, "nl": 10, "np": 11,
    "pt": 12, "sc": 13, "f1": 14, "f2": 15, "f3": 16, "f4": 17, "f5": 18, "f6": 19, "f7": 20, "f8": 21, "f9": 22,
    "f10": 23, "f11": 24, "f12": 25, "f13": 26, "tr": 27, "cr": 28, "pb": 29,
}

# "`Value::tag` gives each value its name's bit of `enum Tag`, [/sc] that of sc" (likewise [/fl] and [/ms])
TAG_OF = {
    "ColorBackground": "cb", "ColorForeground": "cf", "ColorRectangle": "cr", "Flash": "fl", "FlashEnd": "fl",
    "Font": "fo", "Graphic": "g", "HexadecimalCharacter": "hc", "JustificationLine": "jl",
    "JustificationPage": "jp", "ManufacturerSpecific": "ms", "ManufacturerSpecificEnd": "ms", "MovingText": "mv",
    "NewLine": "nl", "NewPage": "np", "PageBackground": "pb", "PageTime": "pt", "SpacingCharacter": "sc",
    "SpacingCharacterEnd": "sc", "TextRectangle": "tr",
}


class BadParameter(Exception):
    """The tag is known; 'That slice has a bad parameter' (6)."""


def must(number):
    """The number, where a number has to be."""
    if number is None:
        raise BadParameter
    return number


def option(numbers):
    """An option as FORMAT.md writes it."""
    return [0] if numbers is None else [1] + list(numbers)


def option_of(number):
    """An option of one number as FORMAT.md writes it."""
    return [0, 0] if number is None else [1, number]


def at_most(number, largest):
    if number > largest:
        raise BadParameter
    return number


def not_zero(number):
    if number == 0:
        raise BadParameter
    return number


def optional(parts, place, bits=8):
    """`parse_optional`: 'missing or empty is none, a number is itself, the rest is refused'"""
    if place >= len(parts) or parts[place] == b"":
        return None
    return must(read_decimal(parts[place], bits))


def optional_version_id(parts, place):
    """`parse_version_id`: a missing part is none, one that is there is exactly four bytes."""
    return must(read_version_id(parts[place])) if place < len(parts) else None


def colour(parts):
    """`parse_color`: one part (Legacy) or three (Rgb), each an 8-bit number."""
    if len(parts) == 1:
        return [0, must(read_decimal(parts[0], 8))]
    if len(parts) == 3:
        return [1] + [must(read_decimal(part, 8)) for part in parts]
    raise BadParameter


def rectangle(parts):
    """'nonzero x and y, width and height possibly 0', 16 bits each."""
    if len(parts) != 4:
        raise BadParameter
    x, y, width, height = [must(read_decimal(part, 16)) for part in parts]
    return [not_zero(x), not_zero(y), width, height]


# Each reader below takes what follows the tag's name, and where in the message that is.

def color_background(rest, _at):
    # one number of 8 bits
    return Value("ColorBackground", option([0, must(read_decimal(rest, 8))] if rest else None), None)


def color_foreground(rest, _at):
    return Value("ColorForeground", option(colour(rest.split(b",")) if rest else None), None)


def page_background(rest, _at):
    return Value("PageBackground", option(colour(rest.split(b",")) if rest else None), None)


def color_rectangle(rest, _at):
    parts = rest.split(b",", 6)
    return Value("ColorRectangle", rectangle(parts[:4]) + colour(parts[4:]), None)


def field(rest, _at):
    # "field numbers 0 to 13"
    parts = rest.split(b",", 1)
    number = at_most(must(read_decimal(parts[0], 8)), 13)
    return Value("Field", [number] + option_of(optional(parts, 1)), number)


def flash(rest, _at):
    if not rest:
        return Value("Flash", [0, 0, 0], None)
    # "A [fl] or [mv] cut inside a character, where the Rust stops, gives 6."
    first = rest[:1].lower()
    if first == b"t":
        order, parts = 0, re.split(b"[oO]", rest[1:], maxsplit=1)
    elif first == b"o":
        order, parts = 1, re.split(b"[tT]", rest[1:], maxsplit=1)
    else:
        raise BadParameter
    times = [optional(parts, place) for place in (0, 1)]
    for time in times:
        if time is not None:
            at_most(time, 99)  # `parse_optional_99`
    return Value("Flash", [order] + option_of(times[0]) + option_of(times[1]), None)


def flash_end(rest, _at):
    return nothing_after(rest, "FlashEnd")


def nothing_after(rest, name):
    if rest:
        raise BadParameter
    return Value(name, [], None)


def font(rest, _at):
    # "[fo] a nonzero 8-bit number"
    if not rest:
        return Value("Font", [0], None)
    parts = rest.split(b",", 1)
    number = not_zero(must(read_decimal(parts[0], 8)))
    version = optional_version_id(parts, 1)
    return Value("Font", [1, number] + option_of(version), (number, version))


def graphic(rest, _at):
    parts = rest.split(b",", 3)
    number = not_zero(must(read_decimal(parts[0], 8)))
    if len(parts) == 1:
        return Value("Graphic", [number, 0], None)
    if len(parts) == 2:
        raise BadParameter
    # "x and y are nonzero 16-bit numbers"
    x = not_zero(must(read_decimal(parts[1], 16)))
    y = not_zero(must(read_decimal(parts[2], 16)))
    return Value("Graphic", [number, 1, x, y] + option_of(optional_version_id(parts, 3)), None)


def hexadecimal_character(rest, _at):
    code = must(read_hexadecimal(rest))
    return Value("HexadecimalCharacter", [code], code)


def justification(rest, name, last):
    # `JustificationLine::new`, `JustificationPage::new`: the one digit itself, no sign and no zero before it
    if not rest:
        return Value(name, [0], None)
    if len(rest) != 1 or not b"1" <= rest <= last:
        raise BadParameter
    return Value(name, [1, int(rest)], int(rest))


def justification_line(rest, _at):
    return justification(rest, "JustificationLine", b"5")


def justification_page(rest, _at):
    return justification(rest, "JustificationPage", b"4")


def manufacturer(rest, at, name):
    # the text is any text: "Text holds code points 1 to 255" is said of text slices
    parts = rest.split(b",", 1)
    number = must(read_decimal(parts[0], 32))
    text = None if len(parts) == 1 else [at + len(parts[0]) + 1, len(parts[1])]
    return Value(name, [number] + option(text), None)


def manufacturer_specific(rest, at):
    return manufacturer(rest, at, "ManufacturerSpecific")


def manufacturer_specific_end(rest, at):
    return manufacturer(rest, at, "ManufacturerSpecificEnd")


def moving_text(rest, at):
    # a mode, then for linear mode at most one digit of delay, then a direction, then the four parts
    # "A [fl] or [mv] cut inside a character, where the Rust stops, gives 6."
    mode = rest[:1].lower()
    used = 1
    delay = 0
    if mode == b"l":
        digit = read_decimal(rest[1:2], 8)
        if digit is not None:
            delay = digit
            used = 2
    elif mode != b"c":
        raise BadParameter
    direction = rest[used:used + 1].lower()
    if direction not in (b"l", b"r"):
        raise BadParameter
    used += 1
    parts = rest[used:].split(b",", 3)
    if len(parts) != 4:
        raise BadParameter
    width = must(read_decimal(parts[0], 16))
    pixels = must(read_decimal(parts[1], 8))
    deciseconds = must(read_decimal(parts[2], 8))
    text = [at + len(rest) - len(parts[3]), len(parts[3])]
    numbers = [int(mode == b"l"), delay, int(direction == b"r"), width, pixels, deciseconds] + text
    return Value("MovingText", numbers, None)


def new_line(rest, _at):
    # "[nl] takes at most one byte after its name"
    if not rest:
        return Value("NewLine", [0], None)
    if len(rest) > 1:
        raise BadParameter
    spacing = must(read_decimal(rest, 8))
    return Value("NewLine", [1, spacing], spacing)


def new_page(rest, _at):
    return nothing_after(rest, "NewPage")


def page_time(rest, _at, bits=8):
    parts = re.split(b"[oO]", rest, maxsplit=1)
    on, off = optional(parts, 0, bits), optional(parts, 1, bits)
    return Value("PageTime", option_of(on) + option_of(off), (on, off))


def long_page_time(rest, at):
    # A5: "[pt] takes 0 to 65,535 for each time"
    return page_time(rest, at, 16)


def spacing_character(rest, _at):
    # "[sc] 0 to 99"
    spacing = at_most(must(read_decimal(rest, 8)), 99)
    return Value("SpacingCharacter", [spacing], spacing)


def spacing_character_end(rest, _at):
    return nothing_after(rest, "SpacingCharacterEnd")


def text_rectangle(rest, _at):
    # "[tr] nonzero x and y, width and height possibly 0"
    parts = rectangle(rest.split(b",", 3))
    return Value("TextRectangle", parts, tuple(parts))


TAG_READERS = {
    b"cb": color_background, b"cf": color_foreground, b"cr": color_rectangle, b"fl": flash, b"/fl": flash_end,
    b"fo": font, b"hc": hexadecimal_character, b"jl": justification_line, b"jp": justification_page,
    b"ms": manufacturer_specific, b"/ms": manufacturer_specific_end, b"mv": moving_text, b"nl": new_line,
    b"np": new_page, b"pb": page_background, b"pt": page_time, b"sc": spacing_character,
    b"/sc": spacing_character_end, b"tr": text_rectangle,
}


def tag_reader(tag):
    """The reader of a tag, without its brackets, and its name's length; None where it is no known tag."""
    name = tag.lower()  # "Names ignore ASCII case."
    for length in (2, 3):
        if name[:length] in TAG_READERS:
            return TAG_READERS[name[:length]], length
    if name[:2] == b"fe":
        return None  # "[fe] is always an unsupported tag."
    if name[:1] == b"f":
        return field, 1
    if name[:1] == b"g":
        return graphic, 1
    return None


def read_value(message, start, length, long_times=False):
    """The value of the slice at this place (`Value::try_from`), or a refusal 5, 6 or 7 with the slice's place. A5: 'Reading is told
    whether long times hold, and without them reads as before.'"""
    part = message[start:start + length]
    if part in (b"[[", b"]]"):
        return Value("Text", [start, 1], [part[0]])  # [[ and ]] print one bracket
    if part[:1] == b"[" and part[-1:] == b"]" and length > 1:
        found = tag_reader(part[1:-1])
        if found is None:
            raise Refusal(5, start, length)  # "no known tag"
        reader, name_length = found
        if long_times and reader is page_time:
            reader = long_page_time
        try:
            return reader(part[1 + name_length:-1], start + 1 + name_length)
        except BadParameter:
            raise Refusal(6, start, length)  # "That slice has a bad parameter"
    if part[:1] in (b"[", b"]"):
        raise Refusal(5, start, length)  # a bracket without its other one is no known tag
    codes = [ord(character) for character in part.decode("utf-8")]
    if any(not 1 <= code <= 255 for code in codes):
        # "That slice is text with a code point outside 1 to 255."
        raise Refusal(7, start, length)
    return Value("Text", [start, length], codes)


def check_message(message):
    """2 and 3, before anything of the message is read."""
    if len(message) > LONGEST_MESSAGE:
        raise Refusal(2)  # "The message is longer than 2,048 bytes."
    try:
        message.decode("utf-8")  # Python takes exactly the well-formed sequences of Unicode's table
    except UnicodeDecodeError:
        raise Refusal(3)  # "The message is not well-formed UTF-8 (added)."


# -------------------------------------------------------------------------------------------------- sign file

Font = namedtuple("Font", "number height char_spacing line_spacing version characters")  # characters: code to width
Character = namedtuple("Character", "number width bitmap")
# options: the kinds of its option records; stand_ins: the letters for which a capital has stood in since the file was read
Sign = namedtuple("Sign", "width height char_width char_height font just_line just_page on off tags fonts entries"
                          " options stand_ins")

# A4: "an empty record of kind 4, directly after kind 1"
# A5: "an empty record of kind 5, directly after kind 1, or after kind 4 if that is there"
# A6: "an empty record of kind 6, directly after kind 1 and any of kinds 4 and 5"
CAPITALS, LONG_TIMES, GROUP_NUMBERS = 4, 5, 6
OPTIONS = (CAPITALS, LONG_TIMES, GROUP_NUMBERS)  # in the order that they have in a file

# "where only fo, hc, jl, jp, nl, np, pt, sc and tr may be set"
ALLOWED_TAGS = sum(1 << BITS[name] for name in ("fo", "hc", "jl", "jp", "nl", "np", "pt", "sc", "tr"))


def little(data):
    """'all numbers little-endian'"""
    return int.from_bytes(data, "little")


def read_sign_file(data):
    """The sign, or refusal 1. `fonts` goes by number, `entries` holds (Font, characters) in the file's order."""
    if len(data) > LONGEST_SIGN_FILE:
        raise Refusal(1)  # "start is 0 if the file is too long (looked at first)"
    if not data:
        raise Refusal(1)  # "or empty"
    configuration = None
    options = []
    entries = []
    numbers = set()  # of fonts
    before = None  # the kind of the record before
    offset = 0
    while offset < len(data):
        # "otherwise the offset of the first record that fails, one cut short included"
        failed = Refusal(1, offset)
        if offset + 4 > len(data):
            raise failed
        # "Records: body length (two bytes), kind (two bytes), body"
        size = little(data[offset:offset + 2])
        kind = little(data[offset + 2:offset + 4])
        body = data[offset + 4:offset + 4 + size]
        if len(body) < size:
            raise failed
        if (kind == 1) != (offset == 0):
            raise failed  # "Kind 1, first and once"
        if kind == 1:
            configuration = read_configuration(body)
            if configuration is None:
                raise failed
        elif kind == 2:
            # "Kind 2, a font, 6 bytes: number, height (neither 0), character spacing, line spacing, version id"
            if size != 6 or body[0] == 0 or body[1] == 0:
                raise failed
            # "At most 24 fonts with distinct numbers"
            if len(entries) == MOST_FONTS or body[0] in numbers:
                raise failed
            numbers.add(body[0])
            entries.append((Font(body[0], body[1], body[2], body[3], little(body[4:6]), {}), []))
        elif kind == 3:
            # "Kind 3, a character of the font before it: number (16 bits, not 0), width (a byte), and a bitmap of
            # width x height bits rounded up to bytes."
            if not entries or size < 3:
                raise failed
            owner, characters = entries[-1]
            number = little(body[0:2])
            width = body[2]
            bitmap = body[3:]
            if number == 0 or len(bitmap) != (width * owner.height + 7) // 8:
                raise failed
            # "256 characters each with numbers distinct within their font"
            if len(characters) == MOST_CHARACTERS or number in owner.characters:
                raise failed
            owner.characters[number] = width
            characters.append(Character(number, width, bytes(bitmap)))
        elif kind in OPTIONS:
            # directly after kind 1 or after an option that comes before it in their order; and empty
            if size or before not in (1,) + OPTIONS[:OPTIONS.index(kind)]:
                raise failed
            options.append(kind)
        else:
            raise failed  # "no other kind"
        before = kind
        offset += 4 + size
    fonts = {entry.number: entry for entry, _ in entries}
    return Sign(*configuration, fonts=fonts, entries=entries, options=options, stand_ins=set())


def read_configuration(body):
    """Kind 1's numbers in order, or None: '15 bytes: width and height in pixels (16 bits each, 1 to 4,096), ...'"""
    if len(body) != 15:
        return None
    width = little(body[0:2])
    height = little(body[2:4])
    if not (1 <= width <= 4096 and 1 <= height <= 4096):
        return None
    # "then one byte each for character width, character height, default font (not 0), line justification (2 left,
    # 3 centre, 4 right), page justification (2 top, 3 middle, 4 bottom), on time, off time"
    char_width, char_height, font_number, just_line, just_page, on, off = body[4:11]
    if font_number == 0 or just_line not in (2, 3, 4) or just_page not in (2, 3, 4):
        return None
    # "then the supported tags (32 bits, as `enum Tag`)"
    tags = little(body[11:15])
    if tags & ~ALLOWED_TAGS:
        return None
    return (width, height, char_width, char_height, font_number, just_line, just_page, on, off, tags)


# ------------------------------------------------------------------------------------------------- version id

def crc_16_ibm_sdlc(data):
    """Polynomial 1021 reflected, starting from and ended by exclusive or with FFFF; "123456789" gives 906E."""
    crc = 0xFFFF
    for byte in data:
        crc ^= byte
        for _ in range(8):
            crc = (crc >> 1) ^ 0x8408 if crc & 1 else crc >> 1
    return crc ^ 0xFFFF


def oer_length(length):
    """A length determinant of the octet encoding rules."""
    if length < 128:
        return bytes([length])
    octets = length.to_bytes((length.bit_length() + 7) // 8, "big")
    return bytes([0x80 | len(octets)]) + octets


def version_id(number, height, char_spacing, line_spacing, characters):
    """`Font::version_id`, of characters (number, width, bitmap) in order."""
    count = len(characters)
    octets = count.to_bytes(max(1, (count.bit_length() + 7) // 8), "big")
    oer = bytearray([number, height, char_spacing, line_spacing, len(octets)]) + octets
    for code, width, bitmap in characters:
        oer += code.to_bytes(2, "big") + bytes([width]) + oer_length(len(bitmap)) + bitmap
    crc = crc_16_ibm_sdlc(oer)
    return (crc & 0xFF) << 8 | crc >> 8  # `u16::from_be`: the bytes change places


def version_ids(sign):
    """(number, version id) of each font in the file's order."""
    return [
        (font.number, version_id(font.number, font.height, font.char_spacing, font.line_spacing, characters))
        for font, characters in sign.entries
    ]


# ---------------------------------------------------------------------------------------------------- measure

def spacing_of(span, font):
    """'a span's spacing is its [sc] value, or its font's where none holds'"""
    return font.char_spacing if span.char_spacing is None else span.char_spacing


def found(sign, font, code):
    """The code of the font's entry that a code is looked up as. One without an entry raises KeyError."""
    if code in font.characters:
        return code
    # A4: the record "lets a missing a to z be looked up as its capital"
    if CAPITALS in sign.options and ord("a") <= code <= ord("z"):
        capital = code - ord("a") + ord("A")
        if capital in font.characters:
            sign.stand_ins.add(code)
            return capital
    raise KeyError(code)  # A4: "A letter with neither form still gives 12 with the code typed."


def text_width(sign, font, codes, spacing):
    """`text_width`. A code without an entry raises KeyError."""
    width = 0
    for code in codes:
        # "code 0, which no file can define, counts as a character of width 0 without lamps"
        character = 0 if code == 0 else font.characters[found(sign, font, code)]
        if width > 0:
            width += spacing  # "Spacing is added before a character only if the width so far is above 0."
        width += character
    return width


# ------------------------------------------------------------------------------------------------------ pages

Item = namedtuple("Item", "start length value refusal")  # a slice with its value, or with its refusal 5, 6 or 7


def items_of(message, long_times=False):
    items = []
    for start, length in slices(message):
        try:
            items.append(Item(start, length, read_value(message, start, length, long_times), None))
        except Refusal as refusal:
            items.append(Item(start, length, None, refusal))
    return items


def pages_of(items):
    """The items of each page, up to and including its [np]; the last page has none and may be empty."""
    pages = [[]]
    for item in items:
        pages[-1].append(item)
        if item.value is not None and item.value.name == "NewPage":
            pages.append([])
    return pages


def supported(sign, value):
    """Whether the sign supports the value's tag."""
    if value.name == "Text":
        return True  # "text none"
    if value.name == "Field":
        if value.data == 0:
            return False  # "field 0 counts as unsupported"
        name = "f%d" % value.data  # "fields 1 to 13 F1 to F13"
    else:
        name = TAG_OF[value.name]
    return sign.tags >> BITS[name] & 1 == 1


def scan_page(sign, page):
    """'5 to 7 go by position up to and including [np], before any placing.'"""
    for item in page:
        # "A tag's parameters are read before its support is looked up: [cf999] gives 6."
        if item.refusal is not None:
            raise item.refusal
        if not supported(sign, item.value):
            raise Refusal(5, item.start, item.length)


def page_times(sign, page, times):
    """'Page times are the last [pt] before [np], a missing part taking the sign's default; without a [pt] they carry
    over from the page before.'"""
    for item in page:
        if item.value.name == "PageTime":
            on, off = item.value.data
            times = (sign.on if on is None else on, sign.off if off is None else off)
    return times


# ----------------------------------------------------------------------------------------------------- passes

Rectangle = namedtuple("Rectangle", "x y width height")

TEXT, HEXADECIMAL, EMPTY = 0, 1, 2  # "kind (0 text, 1 hexadecimal character, 2 empty line)"

# A span before placing; start and length are its record's, and its place where it is refused.
Span = namedtuple("Span", "kind start length code codes font version char_spacing line_spacing"
                          " just_page just_line line number")


class State:
    """What holds for the spans that follow. `font, character spacing and justification carry on` from page to page."""

    def __init__(self, sign):
        self.sign = sign
        self.font = sign.font
        self.version = None
        self.char_spacing = None
        self.just_page = sign.just_page
        self.just_line = sign.just_line
        self.start_page()

    def start_page(self):
        """'Line spacing and text rectangle restart with each page'; so do the line and span numbers."""
        self.line_spacing = None
        self.start_rectangle(Rectangle(1, 1, self.sign.width, self.sign.height))

    def start_rectangle(self, rectangle):
        self.rectangle = rectangle
        self.line = 0
        self.number = 0
        self.last = {}  # the number of each group's last span in this pass

    def group(self):
        """'Spans of one pass sharing page justification, line and line justification form a group'"""
        return self.just_page, self.line, self.just_line

    def next_number(self):
        """A6: 'a span's number, an empty span's too, is 0 if its group has none yet, and otherwise one above the group's last'.
        Without the record it is the number that counts on."""
        if GROUP_NUMBERS not in self.sign.options:
            return self.number
        return self.last[self.group()] + 1 if self.group() in self.last else 0

    def span(self, kind, start, length, code, codes):
        number = self.next_number()
        self.last[self.group()] = number
        return Span(kind, start, length, code, codes, self.font, self.version, self.char_spacing, self.line_spacing,
                    self.just_page, self.just_line, self.line, number)


def rectangle_on_sign(sign, x, y, width, height):
    """`update_text_rectangle`: the rectangle with its zero sizes extended, or None where it is not inside the sign or
    off its character grid."""
    if width == 0:
        width = max(0, sign.width - (x - 1))  # "a zero size reaching to the sign's edge"
    if height == 0:
        height = max(0, sign.height - (y - 1))
    if width == 0 or height == 0:
        return None  # it starts past the edge
    if x - 1 + width > sign.width or y - 1 + height > sign.height:
        return None
    across = max(1, sign.char_width)  # a character size of 0 is a grid of single pixels
    down = max(1, sign.char_height)
    if (x - 1) % across or width % across or (y - 1) % down or height % down:
        return None
    return Rectangle(x, y, width, height)


def passes(sign, page, state):
    """'A pass ends at [tr], [np] or the end.' Gives (rectangle, spans) of each, or a refusal: '6 and 8 by position in
    a pass'."""
    state.start_page()
    spans = []
    blank = True  # "Each pass starts with a blank line"
    for item in page:
        name, data = item.value.name, item.value.data
        bad = Refusal(6, item.start, item.length)
        too_many = Refusal(8, item.start, item.length)
        if name == "Font":
            # [fo] alone is the sign's default font, of any version
            state.font, state.version = (sign.font, None) if data is None else data
        elif name == "JustificationLine":
            if data in (1, 5):
                raise bad
            state.just_line = sign.just_line if data is None else data
            state.number = 0  # "A [jl] always restarts the span number"
        elif name == "JustificationPage":
            if data == 1:
                raise bad
            wanted = sign.just_page if data is None else data
            if wanted != state.just_page:
                # "a [jp] restarts line and span numbers only if it changes the justification"
                state.just_page = wanted
                state.line = 0
                state.number = 0
        elif name == "NewLine":
            if data is not None and data > 0 and sign.char_height > 0:
                raise bad  # "[nl] above 0 where character height is above 0"
            if state.line == MOST_NUMBERED:
                raise too_many
            if blank:
                # A6: "Refusal 8 then counts a group's spans, and line ends as before."
                if GROUP_NUMBERS in sign.options and state.next_number() == MOST_NUMBERED:
                    raise too_many
                # "[nl] on a still blank line lists an empty span"; "Kind 2 starts at its [nl], length 0."
                spans.append(state.span(EMPTY, item.start, 0, 0, []))
            blank = True  # the next line is blank again
            state.line_spacing = data  # of the line that begins
            state.line += 1
            state.number = 0
        elif name == "SpacingCharacter":
            if data > 0 and sign.char_width > 0:
                raise bad  # "[sc] above 0 where character width is"
            state.char_spacing = data
        elif name == "SpacingCharacterEnd":
            state.char_spacing = None
        elif name in ("Text", "HexadecimalCharacter"):
            if name == "HexadecimalCharacter" and 0xD800 <= data <= 0xDFFF:
                raise bad  # "[hc] D800 to DFFF hexadecimal"
            if state.next_number() == MOST_NUMBERED:
                raise too_many
            if name == "Text":
                # "Kind 0 from [[ or ]] has the slice's start and length 1."
                spans.append(state.span(TEXT, item.start, item.value.numbers[1], 0, data))
            else:
                # "Kind 1 covers its tag."
                spans.append(state.span(HEXADECIMAL, item.start, item.length, data, [data]))
            state.number += 1
            blank = False  # "a text or [hc] ends the blank"; "the blank mark is not reset by [jp]"
        elif name == "TextRectangle":
            following = rectangle_on_sign(sign, *data)
            if following is None:
                raise bad
            yield state.rectangle, spans
            spans = []
            blank = True
            state.start_rectangle(following)
        # [pt] is taken by page_times; [np] is the page's last item
    yield state.rectangle, spans


# ---------------------------------------------------------------------------------------------------- placing

# "A record holds kind, start and length in message bytes, character code, x, y from 0, width, height, font, line,
# span number, rectangle (its x and y from 1 as in [tr], its zero sizes already extended)."
Record = namedtuple("Record", "kind start length code x y width height font line span rx ry rwidth rheight")


def half_up(total):
    """'half the sum ..., rounded up'"""
    return (total + 1) // 2


class Pass:
    """The spans of one pass and what their placing needs. Faults carry no place; place() adds the span's."""

    def __init__(self, sign, rectangle, spans):
        self.sign = sign
        self.rectangle = rectangle
        self.spans = spans
        self.groups = {}
        self.columns = {}

    def font(self, span):
        font = self.sign.fonts.get(span.font)
        if font is None:
            raise Refusal(10, detail=span.font)  # "Font not defined; detail its number."
        if span.version is not None and span.version != font.version:
            raise Refusal(11)  # "Font version id differs."
        return font

    def measure(self, span):
        """A span's width is the measure of its text, 0 for an empty one."""
        font = self.font(span)
        try:
            return text_width(self.sign, font, span.codes, spacing_of(span, font))
        except KeyError as missing:
            raise Refusal(12, detail=missing.args[0])  # "Character not defined; detail its code."

    def group(self, span):
        """'Spans of one pass sharing page justification, line and line justification form a group.' Gives their
        (number, spacing due before it, width) in the message's order; the first fault in that order refuses."""
        key = (span.just_page, span.line, span.just_line)
        if key not in self.groups:
            measured = []
            before = None
            for other in self.spans:
                if (other.just_page, other.line, other.just_line) == key:
                    width = self.measure(other)
                    due = 0 if before is None else self.spacing_due(before, other)
                    measured.append((other.number, due, width))
                    before = other
            self.groups[key] = measured
        return self.groups[key]

    def spacing_due(self, before, span):
        """'its own [sc] value if one holds, otherwise half the sum of the spacings of the span before it and its own,
        rounded up'"""
        if span.char_spacing is not None:
            return span.char_spacing
        return half_up(spacing_of(before, self.font(before)) + spacing_of(span, self.font(span)))

    def x(self, span):
        """`span_x`, with `offset_horiz`: the group's widths and spacings on either side of the span's left edge, told
        apart by span number."""
        group = self.group(span)
        before = sum(width for number, _, width in group if number < span.number)
        before += sum(due for number, due, _ in group if number <= span.number)
        after = sum(width for number, _, width in group if number >= span.number)
        after += sum(due for number, due, _ in group if number > span.number)
        left, width = self.rectangle.x - 1, self.rectangle.width
        if before + after > width:
            raise Refusal(13)  # "Text exceeds the rectangle's width"
        if span.just_line == 2:
            return left + before
        if span.just_line == 4:
            return left + width - after
        x = left + (width - before - after) // 2 + before
        return x - x % max(1, self.sign.char_width)  # to the character grid, down

    def lines(self, just_page):
        """The line list of the spans of one page justification: [height, font's line spacing, [nl] value] each."""
        if just_page not in self.columns:
            lines = []
            for span in self.spans:
                if span.just_page == just_page:
                    font = self.font(span)
                    if span.line >= len(lines):
                        # "a span whose line number is at or past its length adds a new line"
                        lines.append([font.height, font.line_spacing, span.line_spacing])
                    else:
                        line = lines[span.line]
                        line[0] = max(line[0], font.height)
                        line[1] = max(line[1], font.line_spacing)
                        if line[2] is None:
                            line[2] = span.line_spacing
            self.columns[just_page] = lines
        return self.columns[just_page]

    def y(self, span):
        """`span_y`, with `offset_vert`: the lines up to the span's number are above its baseline, the rest below."""
        lines = self.lines(span.just_page)
        above = below = 0
        for place, (height, font_spacing, line_spacing) in enumerate(lines):
            space = 0
            if place > 0 and self.sign.char_height == 0:
                # a line's own [nl] value, or half the sum of the two lines' font spacings, rounded up; none on a sign
                # with a character height
                space = half_up(lines[place - 1][1] + font_spacing) if line_spacing is None else line_spacing
            if place <= span.line:
                above += space + height
            else:
                below += space + height
        top, height = self.rectangle.y - 1, self.rectangle.height
        if above + below > height:
            raise Refusal(13)  # "or height"
        if span.just_page == 2:
            baseline = top + above
        elif span.just_page == 4:
            baseline = top + height - below
        else:
            baseline = top + (height - above - below) // 2 + above
            baseline -= baseline % max(1, self.sign.char_height)  # to the character grid, up the sign
        font = self.font(span)
        if baseline < font.height:
            raise Refusal(14)  # "The rounded baseline is less than the font height (the Rust stops)."
        return baseline - font.height

    def check_justification(self):
        """'9. A span's justification goes back (`check_justification`, TagConflict); place of that span.' It is held
        against the span just before."""
        for before, span in zip(self.spans, self.spans[1:]):
            back = span.just_page < before.just_page
            same_line = span.just_page == before.just_page and span.line == before.line
            if back or (same_line and span.just_line < before.just_line):
                raise Refusal(9, span.start, span.length)

    def place(self):
        """The records of the pass: 9 first, 'Then span by span, x before y'."""
        self.check_justification()
        records = []
        for span in self.spans:
            try:
                x = self.x(span)
                y = self.y(span)
            except Refusal as fault:
                # "their place is the span being placed"
                raise Refusal(fault.number, span.start, span.length, fault.detail)
            # "its height is its font's, an empty span's too"
            records.append(Record(span.kind, span.start, span.length, span.code, x, y, self.measure(span),
                                  self.font(span).height, span.font, span.line, span.number, *self.rectangle))
        return records


def place_page(sign, page, state):
    """'Then passes follow one another.'"""
    records = []
    for count, (rectangle, spans) in enumerate(passes(sign, page, state), start=1):
        records += Pass(sign, rectangle, spans).place()
        if count > MOST_PASSES:
            raise Refusal(15)  # "The page's 51st pass has been placed."; "15 none"
    return records


# ---------------------------------------------------------------------------------------------------- listing

On = namedtuple("On", "duration records")
Off = namedtuple("Off", "duration")
End = namedtuple("End", "count")


def listing(sign_file, message):
    """The answers from 0 on, up to and with the first that is an end or a refusal."""
    try:
        return listing_on(read_sign_file(sign_file), message)  # 1
    except Refusal as refusal:
        return [refusal]


def stand_ins(sign_file, message):
    """The letters for which a capital stands in where the listing is made (A4); 'files with it compare with the Rust
    where no capital stands in'."""
    try:
        sign = read_sign_file(sign_file)
    except Refusal:
        return set()
    listing_on(sign, message)
    return sign.stand_ins


def listing_on(sign, message):
    answers = []
    try:
        check_message(message)            # 2, 3; 4 is of the lent slice, which these streams have not
        state = State(sign)
        times = (sign.on, sign.off)
        for page in pages_of(items_of(message, LONG_TIMES in sign.options)):
            scan_page(sign, page)         # 5 to 7
            times = page_times(sign, page, times)
            answers.append(On(times[0], place_page(sign, page, state)))  # 6, 8 to 15
            if times[1] > 0:
                answers.append(Off(times[1]))  # "An off answer follows an on page when the off time is above 0."
        answers.append(End(len(answers)))
    except Refusal as refusal:
        answers.append(refusal)
    return answers


# --------------------------------------------------------------------------------------------- case and answer

class StreamError(Exception):
    """A stream that FORMAT.md does not allow; the message names the line."""


def refusal_line(refusal):
    return "4 %d %d %d %d" % (refusal.number, refusal.start, refusal.length, refusal.detail)


def number_answer(number):
    return ["0" if number is None else "1 %d" % number]


def values_answer(message, long_times=False):
    """The lines of a V case, or of a T case, where long times hold (A5)."""
    try:
        check_message(message)
    except Refusal as refusal:
        return [refusal_line(refusal)]
    items = items_of(message, long_times)
    lines = [str(len(items))]
    for item in items:
        if item.refusal is not None:
            numbers = [0, item.refusal.number]
        else:
            numbers = [CODES[item.value.name]] + item.value.numbers
        numbers += [0] * (9 - len(numbers))  # the code and eight numbers
        lines.append(" ".join(str(number) for number in [item.start, item.length] + numbers))
    return lines


def version_ids_answer(sign_file):
    """The lines of an I case."""
    try:
        found = version_ids(read_sign_file(sign_file))
    except Refusal as refusal:
        return [refusal_line(refusal)]
    return [str(len(found))] + ["%d %d" % pair for pair in found]


def listing_answer(sign_file, message):
    """The lines of an L case."""
    lines = []
    for answer in listing(sign_file, message):
        if isinstance(answer, On):
            lines.append("1 %d %d" % (answer.duration, len(answer.records)))
            lines += [" ".join(str(number) for number in record) for record in answer.records]
        elif isinstance(answer, Off):
            lines.append("2 %d" % answer.duration)
        elif isinstance(answer, End):
            lines.append("3 %d" % answer.count)
        else:
            lines.append(refusal_line(answer))
    return lines


HEX = re.compile("(?:[0-9a-f]{2})+")


def unhex(word):
    """The bytes that a word writes, or None."""
    if word == "-":
        return b""
    return bytes.fromhex(word) if HEX.fullmatch(word) else None


def rehex(data):
    return data.hex() if data else "-"


def case_answer(words, sign_file):
    """The answer of one case line, None where the line is no case."""
    kind = words[0]
    if words == ["I"]:
        return version_ids_answer(sign_file)
    if kind == "D" and len(words) == 3 and words[1] in ("8", "16", "32"):
        data = unhex(words[2])
        return None if data is None else number_answer(read_decimal(data, int(words[1])))
    if len(words) != 2 or kind not in ("X", "Q", "V", "T", "L"):
        return None
    data = unhex(words[1])
    if data is None:
        return None
    if kind == "X":
        return number_answer(read_hexadecimal(data))
    if kind == "Q":
        return number_answer(read_version_id(data))
    if kind in ("V", "T"):
        return values_answer(data, kind == "T")
    return listing_answer(sign_file, data)


def answer_stream(lines, write):
    """Reads a case stream (lines with their ends), hands the answer stream's lines to write."""
    sign_file = None
    count = 0
    place = 0
    ended = False
    for place, line in enumerate(lines, start=1):
        if ended or not line.endswith("\n"):
            raise StreamError("line %d: %s" % (place, "after the end" if ended else "no newline"))
        line = line[:-1]
        words = line.split(" ")
        if place == 1:
            if line != "kambelohi cases 1":
                raise StreamError("line 1: not the head of a case stream")
            write("kambelohi answers 1")
            continue
        if words[0] == "end":
            if line != "end %d" % count:
                raise StreamError("line %d: wrong count, %d cases came" % (place, count))
            write(line)
            ended = True
        elif words[0] == "S" and len(words) == 2 and unhex(words[1]) is not None:
            sign_file = unhex(words[1])
            write(line)
        else:
            if words[0] in ("I", "L") and sign_file is None:
                raise StreamError("line %d: no sign file yet" % place)
            answer = case_answer(words, sign_file)
            if answer is None:
                raise StreamError("line %d: no case" % place)
            count += 1
            write(line)
            for answer_line in answer:
                write(answer_line)
    if not ended:
        raise StreamError("line %d: no end" % (place + 1))
