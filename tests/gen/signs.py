"""Sign files for the case generator: right ones by plan, and ones that break a rule of refusal 1 at its boundary."""

import os
import sys

sys.path.insert(0, os.path.join(os.path.dirname(os.path.abspath(__file__)), "..", "model"))

import kambelohi_model as model  # noqa: E402

TAGS = ("fo", "hc", "jl", "jp", "nl", "np", "pt", "sc", "tr")
ALL_NINE = model.ALLOWED_TAGS


def record(kind, body):
    return len(body).to_bytes(2, "little") + (kind & 0xFFFF).to_bytes(2, "little") + bytes(body)


class FontPlan:
    def __init__(self, number, height, char_spacing, line_spacing, characters, wrong_version=False):
        self.number = number
        self.height = height
        self.char_spacing = char_spacing
        self.line_spacing = line_spacing
        self.characters = characters  # (code, width, bitmap)
        self.version = model.version_id(number, height, char_spacing, line_spacing, characters)
        if wrong_version:
            self.version ^= 0x0101
        self.widths = {code: width for code, width, _ in characters}
        # codes that stand in a text slice as themselves
        self.letters = [code for code, _, _ in characters if 1 <= code <= 255 and code not in (91, 93)]

    def records(self):
        head = bytes([self.number, self.height, self.char_spacing, self.line_spacing])
        parts = [record(2, head + self.version.to_bytes(2, "little"))]
        for code, width, bitmap in self.characters:
            parts.append(record(3, code.to_bytes(2, "little") + bytes([width]) + bitmap))
        return parts

    def measure(self, codes, spacing):
        """About what the codes take; only used to make messages that fit."""
        return sum(self.widths.get(code, 0) for code in codes) + spacing * max(0, len(codes) - 1)


class SignPlan:
    def __init__(self, width, height, char_width, char_height, font, just_line, just_page, on, off, tags, fonts, options=()):
        self.width = width
        self.height = height
        self.char_width = char_width
        self.char_height = char_height
        self.font = font
        self.just_line = just_line
        self.just_page = just_page
        self.on = on
        self.off = off
        self.tags = tags
        self.fonts = fonts
        self.options = options  # kinds of the empty records after kind 1

    def supports(self, name):
        return self.tags >> model.BITS[name] & 1 == 1

    def font_by_number(self, number):
        for font in self.fonts:
            if font.number == number:
                return font
        return None

    def configuration(self, **changed):
        value = dict(vars(self), **changed)
        body = value["width"].to_bytes(2, "little") + value["height"].to_bytes(2, "little")
        body += bytes([value["char_width"], value["char_height"], value["font"], value["just_line"],
                       value["just_page"], value["on"], value["off"]])
        return body + value["tags"].to_bytes(4, "little")

    def records(self, **changed):
        parts = [record(1, self.configuration(**changed))]
        parts += [record(kind, b"") for kind in self.options]
        for font in self.fonts:
            parts += font.records()
        return parts

    def data(self):
        return b"".join(self.records())


def make_font(rng, number, height, fixed=None, spacing=None, line_spacing=None, most=20, wrong_version=False, pool=None):
    """A font with random characters of the pool, and others; `fixed` is the one width of them all."""
    if pool is None:
        pool = list(range(65, 91)) + [32, 33, 45] + list(range(48, 58)) + list(range(97, 103))
    codes = rng.sample(pool, rng.randint(3, max(3, most)))
    for extra, chance in ((91, 0.75), (93, 0.5), (0xE9, 0.35), (0xFF, 0.2), (0x80, 0.1), (1, 0.1), (0x7F, 0.05),
                          (0x20AC, 0.15), (0xFFFF, 0.08), (0x100, 0.08), (0xD800, 0.03), (0xE000, 0.04)):
        if rng.random() < chance:
            codes.append(extra)
    if rng.random() < 0.8 and 65 not in codes:
        codes.append(65)
    rng.shuffle(codes)
    characters = []
    largest = rng.choice((2, 5, 6, 8, 12))
    for code in codes:
        width = fixed if fixed is not None else rng.randint(rng.choice((0, 1, 1, 1)), largest)
        characters.append((code, width, bytes(rng.getrandbits(8) for _ in range((width * height + 7) // 8))))
    if spacing is None:
        spacing = rng.choice((0, 1, 1, 2, 2, 3, 4, rng.randint(0, 12), rng.choice((20, 99, 100, 255))))
    if line_spacing is None:
        line_spacing = rng.choice((0, 1, 2, 3, 3, 4, rng.randint(0, 12), rng.choice((15, 255))))
    return FontPlan(number, height, spacing, line_spacing, characters, wrong_version)


def make_tags(rng):
    if rng.random() < 0.78:
        return ALL_NINE
    if rng.random() < 0.1:
        return 0
    return sum(1 << model.BITS[name] for name in TAGS if rng.random() < 0.85)


def make_sign(rng, matrix=None, small=False, wrong_version=False, pool=None):
    """A right sign file's plan. matrix: "full", "line" or "character"."""
    if matrix is None:
        matrix = rng.choices(("full", "line", "character"), (55, 22, 23))[0]
    many = rng.random() < 0.02 and not small
    count = 24 if many else rng.choices((0, 1, 2, 3, 4), (1, 50, 30, 14, 5))[0]
    most = 4 if many else (7 if small else rng.choice((5, 8, 12, 20)))
    numbers = rng.sample(range(1, 256), count)
    if count and rng.random() < 0.8:
        numbers[0] = 1
        if 1 in numbers[1:]:
            numbers[numbers.index(1, 1)] = next(n for n in range(2, 256) if n not in numbers)
    fonts = []
    if matrix == "full":
        char_width = char_height = 0
        if rng.random() < 0.08:
            char_width = rng.choice((1, 2, 5))  # a width alone
        for number in numbers:
            height = rng.randint(1, 12)
            fixed = rng.randint(1, 8) if rng.random() < 0.25 else None
            fonts.append(make_font(rng, number, height, fixed, None, None, most, wrong_version, pool))
        tallest = max([font.height for font in fonts] or [7])
        width = rng.choice((rng.randint(20, 60), rng.randint(40, 150), rng.randint(100, 400)))
        height = tallest * rng.randint(1, 5) + rng.randint(0, 16)
    else:
        char_height = rng.randint(1, 12)
        char_width = rng.randint(1, 9) if matrix == "character" else 0
        for number in numbers:
            height = char_height if rng.random() < 0.75 else rng.randint(1, 12)
            fixed, spacing = None, None
            if matrix == "character" and rng.random() < 0.85:
                fixed, spacing = char_width, 0
            fonts.append(make_font(rng, number, height, fixed, spacing, None, most, wrong_version, pool))
        width = max(1, char_width) * rng.randint(4, 30) if matrix == "character" else rng.randint(20, 150)
        height = char_height * rng.randint(1, 6)
        if rng.random() < 0.08:
            height += rng.randint(1, 5)
        if rng.random() < 0.05:
            width += rng.randint(1, 5)
    odd = rng.random()
    if odd < 0.02:
        width = rng.choice((1, 2, 4095, 4096))
    elif odd < 0.04:
        height = rng.choice((1, 2, 4095, 4096))
    elif odd < 0.10:
        width, height = 4096, 4096
    elif odd < 0.11:
        width, height = 1, 1
    default = numbers[0] if numbers and rng.random() < 0.97 else rng.randint(1, 255)
    on = rng.choice((30, 30, rng.randint(0, 255), 0, 1, 255))
    off = rng.choice((0, 0, 0, 0, 5, 1, 255, rng.randint(0, 255)))
    return SignPlan(width, height, char_width, char_height, default, rng.choice((2, 2, 3, 3, 4)),
                    rng.choice((2, 2, 3, 3, 4)), on, off, make_tags(rng), fonts)


def option_sign(rng, wrong_version=False):
    """A sign with some of the option records; its fonts have capitals and few small letters, some of these beside their capital."""
    # @ and two letters of Latin-1, so that nothing but a to z can be taken for a small letter
    pool = list(range(65, 91)) + [32, 48, 64, 0xC0, 0xC9] + rng.sample(range(97, 123), rng.choice((0, 0, 1, 2, 4)))
    plan = make_sign(rng, small=rng.random() < 0.3, wrong_version=wrong_version, pool=pool)
    plan.options = rng.choice(option_sets())
    return plan


def option_sets():
    """The option records that a file may have, in their order: all but none."""
    sets = [()]
    for kind in model.OPTIONS:
        sets += [chosen + (kind,) for chosen in sets]
    return sets[1:]


def as_typed(plan):
    """The plan with each character that can be typed on it: a small letter for which the capital stands in, too (A4)."""
    fonts = []
    for font in plan.fonts:
        capitals = [(code + 32, width, bitmap) for code, width, bitmap in font.characters
                    if model.CAPITALS in plan.options and 65 <= code <= 90 and code + 32 not in font.widths]
        typed = FontPlan(font.number, font.height, font.char_spacing, font.line_spacing, font.characters + capitals)
        typed.version = font.version
        fonts.append(typed)
    return SignPlan(**dict(vars(plan), fonts=fonts))


def wide_sign(rng):
    """A sign whose texts pass 65,535 lamps within a message: font 1 has wide letters, font 2 is high, font 3 narrow."""
    width = rng.choice((200, 254, 255))
    spacing = rng.choice((0, 3, 99, 255))
    wide = [(65, width, bytes(rng.getrandbits(8) for _ in range((width + 7) // 8))), (66, 255, bytes(32)), (91, 120, bytes(15))]
    thin = [(65, rng.choice((0, 1)), b""), (91, 1, b"")]
    high = rng.choice((200, 255))
    fonts = [FontPlan(1, 1, spacing, rng.choice((0, 255)), wide),
             FontPlan(2, high, rng.choice((0, 255)), 255, [(code, size, bytes((size * high + 7) // 8)) for code, size, _ in thin]),
             FontPlan(3, 1, 255, 0, [(code, size, bytes(size)) for code, size, _ in thin])]
    size = rng.choice(((4096, 4096), (4096, 4096), (500, 300)))
    char_height = rng.choice((0, 0, 0, 1))
    return SignPlan(*size, 0, char_height, 1, rng.choice((2, 3, 4)), rng.choice((2, 3, 4)), 30, rng.choice((0, 5)), ALL_NINE, fonts)


def roomy_sign(rng):
    """A sign on which many spans and lines fit, with three fonts of different heights and spacings."""
    fonts = []
    for number in (1, 2, 3):
        height = rng.randint(1, 9)
        widths = [(code, rng.choice((0, 1, 2, 3, 5))) for code in (65, 66, 91, 93)]
        letters = [(code, width, bytes((width * height + 7) // 8)) for code, width in widths]
        fonts.append(FontPlan(number, height, rng.choice((0, 1, 2, 5)), rng.choice((0, 1, 3)), letters))
    size = rng.choice(((4096, 2000), (1024, 600), (1024, 600), (200, 100)))
    cell = rng.choice((0, 0, 0, 0, 1, 1, 1, 2))
    return SignPlan(*size, cell, rng.choice((0, 0, 1)), 1, rng.choice((2, 3, 4)), rng.choice((2, 2, 3)), 30, 0, ALL_NINE, fonts)


def full_size_file(rng, size=65535):
    """A right sign file of exactly this many bytes."""
    data = record(1, SignPlan(50, 24, 0, 0, 1, 2, 2, 30, 0, ALL_NINE, []).configuration())
    wide = [(code, 255, bytes(8097)) for code in range(65, 73)]
    data += b"".join(FontPlan(1, 254, 2, 3, wide).records())
    room = size - len(data) - 10
    widths = []
    while room > 0:
        widths.append(min(255, room - 7))
        room -= 7 + widths[-1]
        if 0 < room < 8:
            widths[-1] -= 8
            room += 8
    narrow = [(code, width, bytes(width)) for code, width in enumerate(widths, start=65)]
    data += b"".join(FontPlan(rng.randint(2, 255), 8, 1, 1, narrow).records())
    assert len(data) == size
    return data


def damaged_options(rng, plan):
    """A sign file with an option record that breaks a rule; now and then one that is in its place."""
    first, *rest = SignPlan(**dict(vars(plan), options=())).records()
    kind = rng.choice(model.OPTIONS + (4, 5, 6))
    option = record(kind, b"")
    right = [record(kind, b"") for kind in plan.options]
    choice = rng.randint(-1, 8)
    if choice < 1:
        # anywhere, in front of kind 1 too
        parts = [first] + right[:rng.randint(0, 1)] + rest
        parts.insert(rng.choice((0, 2, 3, rng.randint(0, len(parts)), len(parts))), option)
        return b"".join(parts)
    if choice == 1:
        # directly after kind 1, in any order and number
        return first + b"".join(record(rng.choice((4, 5, 6)), b"") for _ in range(rng.randint(1, 4))) + b"".join(rest)
    if choice == 2:
        # twice, together or not
        return first + b"".join([option] + rest[:rng.choice((0, 1, len(rest)))] + [option] + rest)
    if choice in (3, 4):
        # with a body
        return first + b"".join(right[:rng.randint(0, 1)]) + record(kind, bytes(rng.choice((1, 2, 3, 6, 15)))) + b"".join(rest)
    if choice == 5:
        # cut short, with a body or without
        part = option[:rng.randint(1, 3)] if rng.random() < 0.4 else record(kind, bytes(3))[:rng.randint(4, 6)]
        return first + b"".join(right[:rng.randint(0, 1)]) + part
    if choice == 6:
        # a length without its body: the bytes behind it are taken for one
        return first + rng.choice((1, 4, 10, 256, 65535)).to_bytes(2, "little") + option[2:] + b"".join(rest)
    if choice == 7:
        # a kind of which only the low byte is that of an option, or the next kind
        return first + b"".join(right) + record(rng.choice((kind + 256, kind << 8, 7)), b"") + b"".join(rest)
    return damaged(rng, plan)  # behind options in their place


def damaged(rng, plan):
    """A sign file that breaks a rule of refusal 1, mostly at its boundary."""
    parts = plan.records()
    whole = b"".join(parts)
    choice = rng.randint(0, 17)
    if choice == 0:
        return b""
    if choice == 1:
        return whole[:rng.randint(1, len(whole))]  # cut, now and then at a record's end
    if choice == 2:
        wrong = rng.choice((
            {"width": 0}, {"width": 4097}, {"width": 65535}, {"height": 0}, {"height": 4097}, {"font": 0},
            {"just_line": 1}, {"just_line": 5}, {"just_line": 0}, {"just_page": 1}, {"just_page": 5},
            {"just_page": 255}))
        return b"".join(plan.records(**wrong))
    if choice == 3:
        return b"".join(plan.records(tags=plan.tags | 1 << rng.randint(0, 31)))
    if choice == 4:
        return b"".join(parts + [parts[0]])
    if choice == 5:
        return b"".join(parts[1:] or [record(2, bytes([1, 7, 1, 1, 0, 0]))])
    if choice == 6:
        place = rng.randint(0, len(parts))
        parts.insert(place, record(rng.choice((0, 4, 5, 6, 255, 256, 257, 258, 259, 65535)), bytes(rng.randint(0, 6))))
        return b"".join(parts)
    if choice == 7:
        # a body one byte too long or too short
        place = rng.randrange(len(parts))
        kind, body = parts[place][2], parts[place][4:]
        parts[place] = record(kind, body + b"\0" if rng.random() < 0.5 else body[:-1])
        return b"".join(parts)
    if choice == 8:
        return whole + record(2, bytes([rng.choice([font.number for font in plan.fonts] or [0]), 7, 1, 1, 0, 0]))
    if choice == 9:
        return whole + record(2, rng.choice((bytes([0, 7, 1, 1, 0, 0]), bytes([254, 0, 1, 1, 0, 0]))))
    if choice == 10:
        count = rng.choice((24, 25))
        fonts = [record(2, bytes([number, 7, 1, 1, 0, 0])) for number in rng.sample(range(1, 256), count)]
        return b"".join(parts[:1] + fonts)
    if choice == 11:
        count = rng.choice((256, 257))
        letters = [record(3, code.to_bytes(2, "little") + b"\0") for code in range(1, count + 1)]
        return b"".join(parts[:1] + [record(2, bytes([1, 7, 1, 1, 0, 0]))] + letters)
    if choice == 12:
        # the same character again
        place = rng.randrange(len(parts))
        return b"".join(parts + [parts[place]])
    if choice == 13:
        return b"".join(parts[:1] + [record(3, bytes([65, 0, 0]))] + parts[1:])
    if choice == 14:
        return whole + record(3, b"\0\0\0")
    if choice == 15:
        data = bytearray(whole)
        data[rng.randrange(len(data))] = rng.randint(0, 255)
        return bytes(data)
    if choice == 16:
        return whole + bytes(rng.randint(1, 4))
    # the last character's width or height changed without its bitmap
    font = FontPlan(77, 3, 1, 1, [])
    width, size = rng.choice(((5, 1), (5, 3), (0, 1), (255, 95), (255, 97), (1, 0)))
    tail = [record(3, bytes([65, 0, width]) + bytes(size))]
    return b"".join(parts[:1] + font.records() + tail)
