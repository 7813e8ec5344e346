"""Messages for the case generator. Those for listings are made knowing the sign, so that most are accepted or are
refused late; those for values hold every tag in right, boundary and slightly wrong forms."""

from signs import model

TEXT_SAMPLES = ("A", "AB", "HELLO", " ", "a", "\u00e9", "\u00ff", "\u0001", "\u0080", "~", "GATE 4", "/", ",")
ODD_SAMPLES = ("\u0100", "\u20ac", "\U0001f600", "\u0000", "\uffff", "\ud7ff", "\ue000", "\U0010ffff")
ILL_FORMED = (b"\x80", b"\xff", b"\xc3", b"\xc0\x80", b"\xc1\xbf", b"\xe0\x80\x80", b"\xe0\x9f\xbf", b"\xe2\x82",
              b"\xed\xa0\x80", b"\xed\xbf\xbf", b"\xf0\x80\x80\x80", b"\xf0\x8f\xbf\xbf", b"\xf0\x9f\x98",
              b"\xf4\x90\x80\x80", b"\xf5\x80\x80\x80", b"\xfe", b"\xc3A", b"\xe2A\x82")

# a [fl] or [mv] that the Rust cuts inside a character
CUT_INSIDE = ("[fl\u00e9]", "[FL\u20ac1]", "[mv\u00e9]", "[mvc\u00e9]", "[mvl\u00e9]", "[mvl1\u00e9]",
              "[MVL\U0001f600l1,1,1,a]",
              "A[nl][fl\u00ff]B")


# the messages of docs/DIFFERENCES.md, "NTCIP 1203 v03 and the Rust"
STANDARD = (
    "[cb255] [cb256] [cb1,2,3] [cf10] [cf256] [cf1,2] [cf1,2,3] [pb10] [pb256] [pb1,2] [pb1,2,3] [cr1,1,0,0,9] [cr0,1,1,1,1]"
    " [cr1,1,1,1] [cr1,1,1,1,1,2] [f] [f0] [f13] [f14] [f1,] [f1,0] [f1,255] [f1,256] [f1,1,2] [fx] [fe] [feedx] [fl] [flt] [flt99]"
    " [flt100] [flt099] [flo1t2] [flt1t2] [fl1] [/fl] [/fl1] [fo] [fo0] [fo255] [fo256] [fo1,] [fo1,0ff] [fo1,00ff] [fo1,00FF]"
    " [fo1,+0FF] [fo1,000ff] [fo,0000] [g0] [g256] [g1,1] [g1,1,1] [g1,0,1] [g1,1,1,] [g1,1,1,+0FF] [gx] [hc] [hc0] [hc41] [hc+41]"
    " [hc000041] [hcFFFF] [hc10000] [hcd800] [jl] [jl0] [jl1] [jl5] [jl6] [jl+2] [jl02] [jp] [jp1] [jp4] [jp5] [jp+2] [jp02] [ms]"
    " [ms0] [ms4294967295] [ms4294967296] [ms1,] [ms1,a,b] [ms1,\u20ac] [/ms] [/ms1] [/ms1,\u20ac] [mv] [mvcl1,1,1] [mvcl1,1,1,]"
    " [mvcl0,0,0,a] [mvcl1,1,1,a,b] [mvcl1,1,1,\u20ac] [mvcl65536,1,1,a] [mvcl1,256,1,a] [mvcl1,1,256,a] [mvll1,1,1,a]"
    " [mvl9l1,1,1,a] [mvl10l1,1,1,a] [nl] [nl0] [nl9] [nl10] [nl05] [nl+] [np] [np1] [pt] [pto] [pt0] [pt255o255] [pt256] [pto256]"
    " [pt10,5] [sc] [sc0] [sc99] [sc100] [sc005] [sc+5] [/sc] [/sc1] [tr0,1,1,1] [tr1,0,1,1] [tr1,1,0,0] [tr1,1,1] [tr1,1,1,1,1]"
    " [tr65535,65535,65535,65535] [tr65536,1,1,1] [NL] [PT5O] [FLT1O2] [MVCR1,1,1,a] [HCfF] [hcFf] [/SC] [/nl] [x] [] [ [["
    " ]] ]").split(" ")

def cased(rng, tag):
    """A tag, mostly as it is, else in capitals or in both letter cases."""
    way = rng.random()
    if way < 0.75:
        return tag
    if way < 0.88:
        return tag.upper()
    return "".join(rng.choice((c.upper(), c.lower())) for c in tag)


def number(rng, largest):
    """A decimal number's text: right, at the boundary or slightly wrong."""
    way = rng.random()
    if way < 0.45:
        return str(rng.randint(0, min(largest, rng.choice((1, 9, 40, largest)))))
    if way < 0.60:
        return str(rng.choice((0, 1, largest - 1, largest)))
    if way < 0.72:
        return rng.choice(("+", "0", "00", "+0", "+00", "000000")) + str(rng.randint(0, min(largest, 99)))
    if way < 0.82:
        return str(rng.choice((largest + 1, largest + 2, largest * 10, 2 ** 32, 2 ** 64)))
    return rng.choice(("", "+", "-", "-1", "++1", " 1", "1 ", "x", "1x", "\u00e9", "1\u20ac", "\u0661", "0x1", "1.0",
                       "1_0",
                       "\U0001d7ce", "\u00b2"))


def version(rng):
    way = rng.random()
    if way < 0.5:
        return "%04x" % rng.getrandbits(16) if rng.random() < 0.5 else "%04X" % rng.getrandbits(16)
    if way < 0.65:
        return rng.choice(("+0FF", "+abc", "FFFF", "0000", "+000"))
    return rng.choice(("", "1", "abc", "12345", "+", "-0FF", "++FF", "00g0", "\u00e9\u00e9", "\u00e9ab", "\U0001f600",
                       "0x1f",
                       " 0FF", "0FF ", "FFF"))


def hexadecimal(rng):
    way = rng.random()
    if way < 0.5:
        return "%x" % rng.getrandbits(rng.choice((4, 8, 16)))
    if way < 0.75:
        return rng.choice(("0", "41", "+41", "0041", "000041", "FFFF", "fffe", "D800", "dfff", "d7FF", "E000", "5b",
                           "5D",
                           "+0", "00000000", "20ac"))
    return rng.choice(("", "+", "-1", "10000", "g", "4g", "0x41", "+ 41", " 41", "\u00e9", "FFFFF", "110000"))


def colour(rng):
    count = rng.choices((1, 3, 2, 4, 0), (45, 40, 6, 6, 3))[0]
    return ",".join(number(rng, 255) for _ in range(count))


def four(rng):
    """The four parts of a rectangle, now and then one too few or many."""
    count = rng.choices((4, 3, 5, 0, 1), (88, 4, 4, 2, 2))[0]
    parts = [rng.choice((str(rng.randint(1, 60)), number(rng, 65535))) for _ in range(count)]
    return ",".join(parts)


def some_text(rng):
    return rng.choice(TEXT_SAMPLES + ODD_SAMPLES + ("", "a,b", ","))


def flash(rng):
    def time():
        return rng.choice(("", str(rng.randint(0, 99)), "99", "100", number(rng, 99)))
    way = rng.random()
    if way < 0.15:
        return ""
    if way < 0.5:
        return "t" + time() + rng.choice(("", "o" + time(), "O" + time()))
    if way < 0.85:
        return "o" + time() + rng.choice(("", "t" + time(), "T" + time()))
    return rng.choice(("x", "1", "\u00e9", "\u20ac1", "T1o2t3", "t1o2o3", "O", "t", "to", "\U0001f600", "o1o2"))


def moving(rng):
    way = rng.random()
    if way < 0.8:
        mode = rng.choice(("c", "l", "l%d" % rng.randint(0, 9), "C", "L5"))
        return mode + rng.choice("lrLR") + ",".join(
            (rng.choice(("10", number(rng, 65535))), rng.choice(("1", number(rng, 255))),
             rng.choice(("2", number(rng, 255))), some_text(rng)))
    return rng.choice(("", "c", "l", "x", "\u00e9", "c\u00e9", "l\u00e9", "l1\u00e9", "cl", "cl1", "cl1,2", "cl1,2,3",
                       "l55l1,1,1,a",
                       "l+l1,1,1,a", "cx1,1,1,a", "c1l1,1,1,a", "\u20ac", "lr\u00e9,1,1,a", "ll", "l1", "l1l1,1,1,",
                       "cl1,1,1,a,b,c"))


# the tags of `enum Value`, each with what may follow its name
TAG_FORMS = (
    ("cb", lambda rng: rng.choice(("", number(rng, 255), colour(rng)))),
    ("cf", lambda rng: rng.choice(("", colour(rng), colour(rng)))),
    ("cr", lambda rng: four(rng) + rng.choice((",", ",", ",", "", ",,")) + colour(rng)),
    ("f", lambda rng: rng.choice((str(rng.randint(0, 14)), number(rng, 13))) + rng.choice(
        ("", "", ",", "," + number(rng, 255), ",1,2"))),
    ("fl", flash),
    ("/fl", lambda rng: rng.choice(("", "", "", "1", " ", "\u00e9"))),
    ("fo", lambda rng: rng.choice(("", number(rng, 255), number(rng, 255) + "," + version(rng)))),
    ("g", lambda rng: rng.choice((
        number(rng, 255), number(rng, 255) + "," + number(rng, 65535),
        ",".join((number(rng, 255), rng.choice(("3", number(rng, 65535))), rng.choice(("4", number(rng, 65535))))),
        ",".join((rng.choice(("1", number(rng, 255))), "2", "3", version(rng))), "1,2,3,abcd,5"))),
    ("hc", hexadecimal),
    ("jl", lambda rng: rng.choice(("", "1", "2", "3", "4", "5", "6", "0", "+2", "02", "22", "\u00e9", " "))),
    ("jp", lambda rng: rng.choice(("", "1", "2", "3", "4", "5", "0", "+3", "03", "x", "\u00b2"))),
    ("ms", lambda rng: rng.choice((number(rng, 2 ** 32 - 1), number(rng, 2 ** 32 - 1) + "," + some_text(rng)))),
    ("/ms", lambda rng: rng.choice((number(rng, 2 ** 32 - 1), number(rng, 2 ** 32 - 1) + "," + some_text(rng)))),
    ("mv", moving),
    ("nl", lambda rng: rng.choice(("", str(rng.randint(0, 9)), "10", "+", "+1", "00", "x", "\u00e9", "-"))),
    ("np", lambda rng: rng.choice(("", "", "", "1", " ", "\u00e9"))),
    ("pb", lambda rng: rng.choice(("", colour(rng), colour(rng)))),
    ("pt", lambda rng: rng.choice(("", "o", "O5", "10o5", number(rng, 255), number(rng, 255) + "o" + number(rng, 255),
                                   "o" + number(rng, 255), "1o2o3", "256", "o256"))),
    ("sc", lambda rng: rng.choice((str(rng.randint(0, 99)), "99", "100", number(rng, 99), "", "1,2"))),
    ("/sc", lambda rng: rng.choice(("", "", "", "1", " ", "\u00e9"))),
    ("tr", four),
)
UNKNOWN = ("", "x", "n", "nx", "j", "jx", "p", "pp", "c", "cc", "h", "s", "t", "m", "mm", "/", "/s", "/f", "/m", "/nl",
           "/fo", "fe", "feed", "fe1", "FE", "\u00e9", "n\u00e9", "1", " nl", "nl]", "[", "/ sc", "\u20ac", "hx41",
           "ka")


def any_tag(rng):
    """One tag of any kind, brackets and all."""
    if rng.random() < 0.06:
        return "[" + cased(rng, rng.choice(UNKNOWN)) + "]"
    name, form = rng.choice(TAG_FORMS)
    return "[" + cased(rng, name + form(rng)) + "]"


def brackets(rng):
    """Stray and doubled brackets with little between."""
    pieces = ("[", "]", "[[", "]]", "a", "[nl]", "B", "\u00e9", "[np", "nl]", "[]", "\u20ac", "][", "[]]", "[[]")
    return "".join(rng.choice(pieces) for _ in range(rng.randint(0, 12)))


def mutated(rng, message):
    """One byte changed, dropped, doubled, put in, or two neighbours exchanged."""
    data = bytearray(message)
    if not data:
        return bytes([rng.randint(0, 255)])
    place = rng.randrange(len(data))
    way = rng.randint(0, 4)
    if way == 0:
        data[place] = rng.choice((rng.randint(0, 255), rng.randint(32, 126), rng.choice(b"[],o+0123456789")))
    elif way == 1:
        del data[place]
    elif way == 2:
        data.insert(place, data[place])
    elif way == 3:
        data.insert(place, rng.choice((rng.randint(0, 127), rng.choice(b"[],o+0123456789"))))
    elif place:
        data[place], data[place - 1] = data[place - 1], data[place]
    return bytes(data)


def value_message(rng):
    """A message for a V case."""
    way = rng.random()
    if way < 0.35:
        text = any_tag(rng)
    elif way < 0.75:
        text = "".join(rng.choice((any_tag, any_tag, any_tag, some_text, brackets))(rng)
                       for _ in range(rng.randint(1, 8)))
    elif way < 0.85:
        text = brackets(rng)
    elif way < 0.90:
        text = "".join(any_tag(rng) for _ in range(rng.randint(10, 40)))
    else:
        text = any_tag(rng) + some_text(rng) + any_tag(rng)
        return mutated(rng, text.encode())
    data = text.encode()
    if rng.random() < 0.015:
        place = rng.randint(0, len(data))
        data = data[:place] + rng.choice(ILL_FORMED) + data[place:]
    if rng.random() < 0.005:
        zeros = b"[sc" + b"0" * rng.choice((1000, 2038, 2042, 2043, 2044, 2045)) + b"5]"
        data = zeros + data if rng.random() < 0.5 else zeros
    return data


class Maker:
    """Makes messages for one sign."""

    def __init__(self, rng, sign):
        self.rng = rng
        self.sign = sign

    def restart(self):
        self.font = self.sign.font_by_number(self.sign.font)
        self.spacing = None
        self.just_line = self.sign.just_line
        self.just_page = self.sign.just_page

    # pieces

    def tag(self, name, rest=""):
        """A tag; left out, mostly, where the sign does not support it."""
        if not self.sign.supports(name.strip("/")) and self.rng.random() < 0.985:
            return ""
        return "[" + cased(self.rng, name + rest) + "]"

    def chance(self, share):
        return self.rng.random() < share

    def char_spacing(self):
        if self.spacing is not None:
            return self.spacing
        return self.font.char_spacing if self.font else 0

    def set_spacing(self):
        if not self.sign.supports("sc"):
            return ""
        if self.spacing is not None and self.chance(0.5):
            self.spacing = None
            return self.tag("/sc")
        value = 0 if self.sign.char_width else self.rng.choice((0, 1, 2, 3, 4, 5, self.rng.randint(0, 12)))
        self.spacing = value
        return self.tag("sc", str(value))

    def set_font(self):
        if not self.sign.supports("fo"):
            return ""
        if self.chance(0.25):
            self.font = self.sign.font_by_number(self.sign.font)
            return self.tag("fo")
        if not self.sign.fonts:
            return ""
        self.font = self.rng.choice(self.sign.fonts)
        rest = str(self.font.number)
        if self.chance(0.3):
            rest += "," + ("%04x" % self.font.version)
        return self.tag("fo", rest)

    def set_just_line(self, wanted=None):
        if not self.sign.supports("jl"):
            return ""
        if wanted is None:
            wanted = self.rng.choice((None, 2, 3, 4))
        self.just_line = self.sign.just_line if wanted is None else wanted
        return self.tag("jl", "" if wanted is None else str(wanted))

    def set_just_page(self, wanted=None):
        if not self.sign.supports("jp"):
            return ""
        if wanted is None:
            wanted = self.rng.choice((None, 2, 3, 4))
        self.just_page = self.sign.just_page if wanted is None else wanted
        return self.tag("jp", "" if wanted is None else str(wanted))

    def new_line(self):
        if self.sign.char_height == 0 and self.chance(0.3):
            return self.tag("nl", str(self.rng.randint(0, 9)))
        return self.tag("nl", self.rng.choice(("", "", "", "0")))

    def page_time(self):
        rng = self.rng
        part = lambda: str(rng.choice((0, 1, 5, 10, 255, rng.randint(0, 255))))
        return self.tag("pt", rng.choice(("", part(), part() + "o" + part(), "o" + part(), part() + "o", part() + "O" +
                                          part(), "o")))

    def rectangle(self):
        """A rectangle on the sign's grid, rather large."""
        rng, sign = self.rng, self.sign
        across, down = max(1, sign.char_width), max(1, sign.char_height)

        def side(total, step):
            cells = total // step
            if cells == 0:
                return 1, 0
            first = rng.randint(0, rng.choice((0, cells // 4, cells // 2, cells - 1)))
            length = rng.randint(max(1, (cells - first) // 2), cells - first)
            if rng.random() < 0.3 and total % step == 0:
                return first * step + 1, 0
            return first * step + 1, length * step
        x, width = side(sign.width, across)
        y, height = side(sign.height, down)
        return x, y, width, height

    def extended(self, rectangle):
        x, y, width, height = rectangle
        return x, y, width or self.sign.width - x + 1, height or self.sign.height - y + 1

    def letters(self, room, most):
        """Codes of the font at hand that fit into the room, up to so many."""
        if self.font is None or not self.font.letters:
            return []
        codes = []
        for _ in range(most):
            code = self.rng.choice(self.font.letters)
            if self.font.measure(codes + [code], self.char_spacing()) > room:
                break
            codes.append(code)
        return codes

    def words(self, room, most):
        return "".join(chr(code) for code in self.letters(room, most))

    def piece(self, room):
        """One short span and the width it takes: text, [hc] or a doubled bracket."""
        rng = self.rng
        if self.font is None:
            return "", 0
        way = rng.random()
        if way < 0.2 and self.sign.supports("hc") and self.font.characters:
            code = rng.choice(self.font.characters)[0]
            if rng.random() < 0.05:
                code = 0
            if not 0xD800 <= code <= 0xDFFF and self.font.widths.get(code, 0) <= room:
                form = rng.choice(("%x", "%X", "+%x", "00%x"))
                return self.tag("hc", form % code), self.font.widths.get(code, 0)
        if way < 0.35:
            bracket = rng.choice([code for code in (91, 93) if code in self.font.widths] or [0])
            if bracket and self.font.widths[bracket] <= room:
                return chr(bracket) * 2, self.font.widths[bracket]
        codes = self.letters(room, rng.randint(1, 4))
        return "".join(chr(code) for code in codes), self.font.measure(codes, self.char_spacing())

    # styles

    def realistic(self):
        """Pages of lines, as a crew would type them."""
        rng = self.rng
        self.restart()
        out = []
        for page in range(rng.choices((1, 2, 3, 5), (60, 25, 12, 3))[0]):
            if page:
                if not self.sign.supports("np"):
                    break
                out.append(self.tag("np"))
            if self.chance(0.35):
                out.append(self.page_time())
            rectangle = (1, 1, self.sign.width, self.sign.height)
            if self.chance(0.25) and self.sign.supports("tr"):
                rectangle = self.rectangle()
                out.append(self.tag("tr", "%d,%d,%d,%d" % rectangle))
                rectangle = self.extended(rectangle)
            if self.chance(0.4):
                out.append(self.set_just_page())
            used = 0
            for line in range(rng.randint(1, 5)):
                before = len(out)
                if self.chance(0.25):
                    out.append(self.set_font())
                height = self.font.height if self.font else 1
                space = 0 if self.sign.char_height or not line else (self.font.line_spacing if self.font else 0) + 2
                if used + space + height > rectangle[3] and self.chance(0.97):
                    del out[before:]
                    break
                used += space + height
                if line:
                    out.append(self.new_line())
                    if self.chance(0.08):
                        continue
                if self.chance(0.4):
                    out.append(self.set_just_line())
                if self.chance(0.12):
                    out.append(self.set_spacing())
                out.append(self.words(rectangle[2], rng.randint(1, 14)))
                if self.chance(0.1) and self.just_line < 4:
                    out.append(self.set_just_line(rng.randint(self.just_line + 1, 4)))
                    out.append(self.words(rectangle[2], rng.randint(1, 4)))
        if self.chance(0.2):
            out.append(self.page_time())
        return "".join(out).encode()

    def dense(self, careful=0.97):
        """Many short spans: justifications, fonts, spacings, rectangles."""
        rng = self.rng
        self.restart()
        out = []
        rectangle = (1, 1, self.sign.width, self.sign.height)
        for part in range(rng.choices((1, 2, 3, 6), (50, 28, 16, 6))[0]):
            if part:
                if self.chance(0.25) and self.sign.supports("np"):
                    out.append(self.tag("np"))
                    rectangle = (1, 1, self.sign.width, self.sign.height)
                elif self.sign.supports("tr"):
                    rectangle = self.rectangle()
                    out.append(self.tag("tr", "%d,%d,%d,%d" % rectangle))
                    rectangle = self.extended(rectangle)
                else:
                    break
            if not self.sign.supports("jp"):
                pages = [self.just_page]
            else:
                pages = sorted(rng.sample((2, 3, 4), rng.choices((1, 2, 3), (55, 30, 15))[0]))
            for just_page in pages:
                if just_page != self.just_page or self.chance(0.3):
                    out.append(self.set_just_page(just_page))
                used = 0
                for line in range(rng.randint(1, 4)):
                    if line:
                        space = 0 if self.sign.char_height else (self.font.line_spacing if self.font else 0) + 3
                        if used + space + (self.font.height if self.font else 1) > rectangle[3] \
                                and self.chance(careful):
                            break
                        used += space
                        out.append(self.new_line())
                    used += self.font.height if self.font else 1
                    if not self.sign.supports("jl"):
                        justs = [self.just_line]
                    else:
                        justs = sorted(rng.choice((2, 3, 4)) for _ in range(rng.randint(1, 3)))
                    if self.chance(0.12):
                        continue
                    for just_line in justs:
                        if just_line != self.just_line or self.chance(0.2):
                            out.append(self.set_just_line(just_line))
                        room = rectangle[2]
                        for span in range(rng.randint(1, 4)):
                            if self.chance(0.15):
                                out.append(self.set_spacing())
                            if self.chance(0.12):
                                before = self.font
                                added = self.set_font()
                                if self.font is not None and before is not None \
                                        and used - before.height + self.font.height > rectangle[3] \
                                        and self.chance(careful):
                                    self.font = before
                                else:
                                    out.append(added)
                            if span:
                                room -= self.char_spacing() + 1
                            if room <= 0 and self.chance(careful):
                                break
                            text, width = self.piece(room if self.chance(careful) else 4096)
                            out.append(text)
                            room -= width
        return "".join(out).encode()

    def fit(self):
        """A text in a rectangle of its own size, one more or one less."""
        rng = self.rng
        self.restart()
        out = []
        if self.chance(0.3):
            out.append(self.set_font())
        if self.chance(0.3):
            out.append(self.set_spacing())
        if self.font is None or not self.font.letters:
            return "".join(out).encode() + b"A"
        codes = self.letters(self.sign.width, rng.randint(1, 8)) or [self.font.letters[0]]
        width = 0
        for code in codes:
            width += (self.char_spacing() if width else 0) + self.font.widths[code]
        lines = rng.randint(1, 3)
        step = 0 if self.sign.char_height else self.font.line_spacing
        height = lines * self.font.height + (lines - 1) * step
        width += rng.choice((0, 0, 0, 1, -1))
        height += rng.choice((0, 0, 0, 1, -1))
        across, down = max(1, self.sign.char_width), max(1, self.sign.char_height)
        width, height = max(1, width), max(1, height)
        width += -width % across
        height += -height % down
        x = rng.choice((1, 1, max(1, self.sign.width - width + 1)))
        y = rng.choice((1, 1, max(1, self.sign.height - height + 1)))
        x -= (x - 1) % across
        y -= (y - 1) % down
        if self.chance(0.9):
            out.append(self.tag("tr", "%d,%d,%d,%d" % (x, y, width, height)))
        if self.chance(0.5):
            out.append(self.set_just_page())
        if self.chance(0.5):
            out.append(self.set_just_line())
        text = "".join(chr(code) for code in codes)
        line = text
        if self.chance(0.3) and len(text) > 1:
            cut = rng.randint(1, len(text) - 1)
            line = text[:cut] + rng.choice((self.tag("fo"), self.tag("pt"), "[jp]" if self.sign.supports("jp") else "")
                                           ) + text[cut:]
        return ("".join(out) + ("[nl]" if self.sign.supports("nl") else "").join([line] * lines)).encode()

    def late(self):
        """An otherwise right message with one thing that 6 and 9 to 14 refuse."""
        rng = self.rng
        base = rng.choice((self.realistic, self.dense))()
        font = self.sign.font_by_number(self.sign.font)
        ways = ["nine", "font", "version", "character", "wide", "high", "fourteen", "six"]
        way = rng.choice(ways)
        letter = "A"
        if font is not None and font.letters:
            letter = chr(rng.choice(font.letters))
        if way == "nine":
            extra = rng.choice((self.tag("jl", "4") + letter + self.tag("jl", "2") + letter,
                                self.tag("jl", "3") + letter + self.tag("jl", "2") + letter,
                                self.tag("jp", "4") + letter + self.tag("jp", "3") + letter,
                                self.tag("jp", "3") + letter + self.tag("jp", "2") + self.tag("nl") + self.tag("nl")))
        elif way == "font":
            free = rng.choice([n for n in range(1, 256) if self.sign.font_by_number(n) is None])
            extra = self.tag("fo", str(free)) + rng.choice((letter, "", self.tag("nl"), "[["))
        elif way == "version":
            chosen = rng.choice(self.sign.fonts) if self.sign.fonts else None
            extra = self.tag("fo", "%d,%04x" % (chosen.number, chosen.version ^ rng.choice((0, 1, 0x8000)))
                             if chosen else "1,0000") + letter
        elif way == "character":
            missing = rng.choice((0x7E, 0x2A, 0xFE, 0xA0, 2, 0xFFFE, 0x3A9, 0x5D, 0x5B))
            extra = self.tag("hc", "%x" % missing) if missing > 255 or rng.random() < 0.4 else \
                (chr(missing) * 2 if missing in (0x5B, 0x5D) else letter + chr(missing))
        elif way == "wide":
            extra = letter * rng.choice((30, 60, 200))
        elif way == "high":
            extra = self.tag("nl", rng.choice(("", "9" if not self.sign.char_height else "0"))) * rng.randint(5, 20)
        elif way == "fourteen":
            self.restart()
            small = [f for f in self.sign.fonts if f.letters and f.height < self.sign.char_height]
            if self.sign.char_height and small:
                chosen = min(small, key=lambda f: f.height)
                base = b""
                extra = self.tag("fo", str(chosen.number)) + self.tag("jp", "3") + chr(chosen.letters[0])
            else:
                extra = self.tag("jp", "3") + letter
        else:
            extra = rng.choice(("[jl1]", "[jl5]", "[jp1]", "[hcd800]", "[hcDFFF]", self.tag("nl", "5"), self.tag("sc",
                                "5"),
                                self.tag("tr", "%d,1,0,0" % (self.sign.width + 1)),
                                self.tag("tr", "1,%d,0,0" % (self.sign.height + 1)),
                                self.tag("tr", "2,2,%d,1" % self.sign.width),
                                self.tag("tr", "1,1,%d,%d" % (self.sign.width, self.sign.height)),
                                self.tag("tr", "2,1,0,0"), self.tag("tr", "1,2,0,0"), "[tr65535,1,1,1]"))
        extra = extra.encode()
        return base + extra if rng.random() < 0.7 else extra + base

    def edge(self):
        """A rectangle at the sign's edge or on its grid, one coordinate moved by a pixel or a cell, then a text."""
        rng, sign = self.rng, self.sign
        self.restart()
        sides = list(self.rectangle())
        if self.chance(0.6):
            sides[2:] = self.extended(sides)[2:]
        if self.chance(0.4):
            # up to the edge on one side
            place = rng.randint(0, 1)
            sides[2 + place] = (sign.width, sign.height)[place] - sides[place] + 1
        place = rng.randint(0, 3)
        cell = max(1, (sign.char_width, sign.char_height)[place % 2])
        sides[place] = max(0, sides[place] + rng.choice((1, -1, 1, -1, cell, -cell, 0)))
        return (self.tag("tr", "%d,%d,%d,%d" % tuple(sides)) + self.words(sides[2] or sign.width, 3)).encode()

    def two(self):
        """Two messages with something wrong in one page, in two passes: the first pass is placed before the second is
        read."""
        between = self.rng.choice(("[tr1,1,0,0]", "[tr1,1,0,0]", "[np]", self.tag("tr",
            "%d,%d,%d,%d" % self.rectangle())))
        return self.late() + between.encode() + self.late()

    def boundary(self):
        """Runs that reach the limits of lines, spans, rectangles and bytes."""
        rng = self.rng
        self.restart()
        way = rng.randint(0, 9)
        count = rng.choice((255, 256, 257, 256, 254))
        letter = "[["
        if way == 0:
            return (self.tag("nl") * count).encode()
        if way == 1:
            cut = rng.randint(1, 250)
            middle = rng.choice(("[jp2]", "[jp3]", "[jp4]", "[jp]", "[tr1,1,0,0]", "[jl2]", "[np]"))
            return ("[nl]" * cut + middle + "[nl]" * min(400 - cut, count)).encode()
        if way == 2:
            return (letter * count).encode()
        if way == 3:
            cut = rng.randint(1, 250)
            middle = rng.choice(("[jl2]", "[jl]", "[jl3]", "[jl4]", "[jp2]", "[jp3]", "[nl]", "[tr1,1,0,0]", "[np]",
                                 "[sc1]",
                                 "[fo]"))
            return (letter * cut + middle + letter * count).encode()
        if way == 4:
            return (self.tag("hc", "41") * min(count, 340) + rng.choice(("", "[jl]", "[hcd800]"))).encode()
        if way == 5:
            rectangle = rng.choice(("[tr1,1,0,0]", "[tr%d,%d,%d,%d]" % self.rectangle()))
            many = rng.choice((49, 50, 51, 50))
            tail = rng.choice(("", "", self.words(self.sign.width, 1), "[fo99]A", "[np]" + rectangle * 3))
            return (rectangle * many + tail).encode()
        if way == 6:
            wanted = rng.choice((2047, 2048, 2048, 2049))
            filler = rng.choice(("[pt]", "[/sc]", "[fo]", "[jp]", "[jl]", "[pt25]"))
            if not self.sign.supports(filler.strip("[]/").strip("25")[:2]):
                filler = "[pt]"
            data = self.realistic()
            while len(data) + len(filler) <= wanted:
                data += filler.encode()
            rest = wanted - len(data)
            if rest >= 3 and self.sign.supports("pt"):
                data += b"" if rest == 3 else b"[pt" + b"0" * (rest - 4) + b"]"
            return data + b"A" * (wanted - len(data))
        if way == 7:
            zeros = rng.choice((1, 100, 1000, 2000))
            name = rng.choice(("hc", "sc", "fo", "pt"))
            value = {"hc": "41", "sc": "0", "fo": str(self.sign.font), "pt": "9"}[name]
            return (self.tag(name, "0" * zeros + value) + self.words(self.sign.width, 2)).encode()
        if way == 8:
            # sums beyond 16 bits
            text = self.words(4096 * 64, rng.choice((260, 700, 1900)))
            return (rng.choice(("", "[sc99]")) + text).encode()[:2000].decode("utf-8", "ignore").encode()
        cut = rng.randint(1, 100)
        return ("[jl2]" + letter * cut + "[jl3]" + letter * rng.choice((1, 50, 255, 256)) + "[jl4]" + letter).encode()

    def wrong(self):
        """A right message with any tag put between its slices."""
        rng = self.rng
        base = rng.choice((self.realistic, self.dense))()
        openings = [i for i, byte in enumerate(base) if byte == 0x5B and base[i - 1:i] != b"["]
        place = rng.choice([0, len(base)] + openings)
        extra = rng.choice((any_tag, any_tag, some_text, brackets))(rng).encode()
        if self.chance(0.05):
            extra = rng.choice((b"[f0]", b"[F00,3]", b"[f+0,]"))
        return base[:place] + extra + base[place:]

    def noise(self):
        rng = self.rng
        pieces = [rng.choice((any_tag, brackets, some_text))(rng).encode() for _ in range(rng.randint(1, 6))]
        if rng.random() < 0.35:
            pieces.insert(rng.randint(0, len(pieces)), rng.choice(ILL_FORMED))
        if rng.random() < 0.05:
            pieces.append(b"A" * rng.choice((2030, 2048, 2049, 3000)))
        return b"".join(pieces)

    def mutation(self):
        rng = self.rng
        return mutated(rng, rng.choice((self.realistic, self.dense, self.dense, self.fit))())

    STYLES = (("realistic", 26), ("dense", 30), ("fit", 10), ("late", 10), ("mutation", 7), ("edge", 4), ("wrong", 4),
              ("boundary", 4), ("noise", 3), ("two", 2))

    def message(self):
        styles = [name for name, _ in self.STYLES]
        weights = [weight for _, weight in self.STYLES]
        return getattr(self, self.rng.choices(styles, weights)[0])()


def long_time(rng):
    """What follows the name in a [pt], with times around the bounds of 8 and 16 bits."""
    def part():
        way = rng.random()
        if way < 0.5:
            return str(rng.choice((255, 256, 600, 65535, 65536)))
        if way < 0.8:
            return str(rng.choice((0, 1, 30, 254, 257, 1000, 9999, 65534, 65537, 70000, 100000, rng.randint(0, 65535))))
        return rng.choice(("+", "0", "0000000", "+00")) + str(rng.choice((5, 255, 256, 65535, 65536)))
    return rng.choice((part(), "o" + part(), part() + "o" + part(), part() + "O" + part(), part() + "o", "", "o", number(rng, 65535)))


def times_message(rng):
    """A message for a T case: [pt] with long times, among other tags and texts."""
    pieces = []
    for _ in range(rng.randint(1, 5)):
        if rng.random() < 0.7:
            pieces.append("[" + cased(rng, "pt" + long_time(rng)) + "]")
        else:
            pieces.append(rng.choice((any_tag, some_text, brackets))(rng))
    data = "".join(pieces).encode()
    return mutated(rng, data) if rng.random() < 0.1 else data


class OptionMaker(Maker):
    """Makes messages for a sign with option records (document 02): those of Maker, of the characters that the fonts have or of those
    that can be typed, and messages about what the options change."""

    def __init__(self, rng, sign, typed):
        Maker.__init__(self, rng, sign)
        self.typed = Maker(rng, typed)

    def small(self):
        """Letters of either case in text and [hc]: those of a font, those whose capital it has, now and then one that has
        neither form."""
        rng = self.rng
        fonts = [font for font in self.typed.sign.fonts if font.letters]
        out = []
        for _ in range(rng.randint(1, 4)):
            chosen = rng.choice(fonts) if fonts else None
            if chosen is not None and (chosen.number != self.sign.font or rng.random() < 0.3):
                out.append(self.tag("fo", str(chosen.number)))
            letters = [code for code in chosen.letters if 65 <= code <= 122] if chosen else []
            codes = [rng.choice(letters) for _ in range(rng.randint(1, 3))] if letters else [97]
            if self.chance(0.2):
                codes[rng.randrange(len(codes))] = rng.choice((rng.randint(97, 122), rng.randint(97, 122), 96, 123, 0xE9, 0xE0))
            if self.chance(0.3):
                out += [self.tag("hc", rng.choice(("%x", "%X", "+%x", "00%x")) % code) for code in codes]
            else:
                out.append("".join(chr(code) for code in codes))
            if self.chance(0.3):
                out.append(rng.choice((self.new_line(), self.set_just_line(), self.tag("np"))))
        return "".join(out).encode()

    def times(self):
        """Pages with times around the bounds of 8 and 16 bits."""
        rng = self.rng
        out = []
        for page in range(rng.randint(1, 3)):
            if page:
                out.append(self.tag("np"))
            out.append(self.words_of_any(rng.randint(0, 2)))
            for _ in range(rng.choice((0, 1, 1, 2))):
                out.append(self.tag("pt", long_time(rng)))
        return "".join(out).encode()

    def groups(self, justifications=(2, 3, 4)):
        """Short spans in groups that are repeated, left and come back to: [jl] again, [jp] there and back, [nl], [tr]."""
        rng = self.rng
        self.restart()
        out = []
        lowest = 2  # the line justification of the span before
        for _ in range(rng.randint(3, 14)):
            way = rng.random()
            if way < 0.45:
                out.append(self.piece(self.sign.width)[0])
                lowest = self.just_line
            elif way < 0.68:
                wanted = [None, self.just_line] + [value for value in justifications if value >= lowest] * 2
                out.append(self.set_just_line(rng.choice(wanted if self.chance(0.95) else justifications)))
            elif way < 0.78:
                out.append(self.new_line())
                lowest = 2
            elif way < 0.90:
                out.append(self.there_and_back())
            elif way < 0.95:
                out.append(rng.choice((self.set_font, self.set_spacing))())
            else:
                out.append(self.tag("tr", "%d,%d,%d,%d" % self.rectangle()))
                lowest = 2
        return "".join(out).encode()

    def there_and_back(self):
        """[jp] to another justification, and mostly back, where the line begins again; then now and then a text or an empty span."""
        rng = self.rng
        here = self.just_page
        blank = self.tag("nl") if self.chance(0.25) else ""
        away = self.set_just_page(rng.choice([value for value in (2, 3, 4) if value != here]))
        if self.chance(0.15):
            return away
        back = self.set_just_page(here)
        return blank + away + back + rng.choice(("", self.piece(self.sign.width)[0], self.tag("nl") if blank else ""))

    def crowd(self, justifications=(2, 3, 4)):
        """A group of 254 to 257 spans, by repeated [jl] or [jp] there and back, the last of them now and then empty."""
        rng = self.rng
        count = rng.choice((254, 255, 256, 257))
        just = rng.choice(justifications)
        again = rng.choice(("[jl%d]" % just, "", "[fo]"))
        there = rng.choice(("", "[jp%d][jp%d]" % (3 if self.sign.just_page == 2 else 2, self.sign.just_page)))
        first = rng.randint(1, count)
        tail = rng.choice(("", "", "[nl][jp%d][jp%d][nl]" % (3 if self.sign.just_page == 2 else 2, self.sign.just_page), "[nl][["))
        if self.chance(0.25):
            return b"[[" + b"[nl]" * rng.choice((254, 255, 256, 257)) + b"[["
        return ("[jl%d]" % just + (again + "[[") * first + there + (again + "[[") * (count - first) + tail).encode()

    def words_of_any(self, most):
        """A few letters of the sign's own font."""
        self.restart()
        return self.words(self.sign.width, most)

    def message(self):
        ways = [(Maker.message, self, 4), (Maker.message, self.typed, 4), (OptionMaker.small, self, 3), (OptionMaker.times, self, 3)]
        if model.GROUP_NUMBERS in self.sign.options:
            ways += [(OptionMaker.groups, self, 14), (OptionMaker.crowd, self, 3)]
        way, maker, _ = self.rng.choices(ways, [weight for _, _, weight in ways])[0]
        return way(maker)


class SumsMaker:
    """Makes messages for a board of `signs.wide_sign`: runs whose widths, spacings or heights pass 65,535, or stay just below
    it, with what 10, 11 or 12 refuses before the sum has passed it, after it, or in another group."""

    LATER = 9  # a font that these boards lack

    def __init__(self, rng, sign):
        self.rng = rng
        self.sign = sign

    def fault(self):
        """A span that 10, 11 or 12 refuses; now and then one that nothing refuses."""
        rng = self.rng
        way = rng.randint(0, 9)
        if way < 3:
            return "[fo%d]" % self.LATER + rng.choice(("A", "[[", "[hc41]", "B"))
        if way < 6:
            font = rng.choice(self.sign.fonts)
            return "[fo%d,%04x]" % (font.number, font.version ^ rng.choice((1, 256, 0x8000))) + rng.choice(("A", "[[", "Z"))
        if way < 9:
            return rng.choice(("", "", "[fo]", "[fo1]", "[sc2]", "[jl]")) + rng.choice(("Z", "AZ", "]]", "[hc5a]", "[hc20ac]"))
        return "[fo1,%04x]A" % self.sign.fonts[0].version

    def across(self):
        """Wide letters in one span or in several, up to some letters before or past 65,535 lamps."""
        rng, font = self.rng, self.sign.fonts[0]
        step = font.widths[65] + font.char_spacing
        count = max(1, 65536 // step + rng.choice((-2, -1, 0, 1, 2, 3, 20)))
        way = rng.randint(0, 3)
        if way < 2:
            return "A" * count
        if way == 2:
            cut = rng.randint(1, count)
            return "A" * cut + rng.choice(("[fo]", "[/sc]", "[[", "[hc41]", "[jl]", "[pt]")) + "A" * (count - cut)
        part = max(1, count // rng.choice((3, 5, 10)))
        return rng.choice(("[fo]", "[jl]", "[hc41]")).join(["A" * part] * (count // part + 1))

    def spaced(self):
        """Narrow letters with wide spacings between spans whose numbers start again."""
        return "[fo3]" + "[jl]A" * self.rng.choice((256, 257, 258, 259, 300))

    def down(self):
        """High lines, up to some lines before or past 65,535 lamps."""
        rng, font = self.rng, self.sign.fonts[1]
        step = font.height + (0 if self.sign.char_height else 255)
        count = min(254, 65536 // step + rng.choice((-2, -1, 0, 1, 2, 20)))
        return "[fo2]" + "[nl]" * count + rng.choice(("A", "", "[fo3][nl]", "[fo3]A"))

    def message(self):
        rng = self.rng
        run = rng.choices((self.across, self.spaced, self.down), (8, 1, 2))[0]()
        way = rng.random()
        if way < 0.6:
            parts = (run, self.fault())
        elif way < 0.7:
            parts = (run, self.fault(), self.fault())
        elif way < 0.8:
            parts = (run,)
        elif way < 0.86:
            parts = (self.fault(), run)
        elif way < 0.95:
            parts = (run, rng.choice(("[nl]", "[jl4]", "[jp4]", "[tr1,1,0,0]", "[np]")), self.fault())
        else:
            parts = ("A", rng.choice(("[nl]", "[jl4]", "[tr1,1,0,0]", "[np]")), run, self.fault())
        return "".join(parts).encode()


class GroupsMaker:
    """Makes messages for a board of `signs.roomy_sign` whose groups are no runs and whose span numbers repeat: [jl] again, [jp] there
    and back, empty lines, every justification, fonts and spacings between spans."""

    def __init__(self, rng, sign):
        self.rng = rng
        self.sign = sign

    def text(self):
        return self.rng.choice(("A", "B", "AB", "[[", "]]", "[hc41]", "A[[", "[[[[A", "B[[B[[B"))

    def just(self, wanted):
        self.line_just = wanted
        return "[jl]" if wanted == self.sign.just_line and self.rng.random() < 0.5 else "[jl%d]" % wanted

    def kept(self):
        """The line justification that the last span of this line has at least, now and then not."""
        page, line, just = self.last
        if (page, line) == (self.page, self.line) and self.line_just < just and self.rng.random() < 0.97:
            return self.just(self.rng.randint(just, 4))
        return ""

    def span(self):
        before = self.kept()
        self.last = (self.page, self.line, self.line_just)
        return before + self.text()

    def turn(self):
        """[jp] there and back: line and span numbers restart."""
        other = self.rng.choice([page for page in (2, 3, 4) if page != self.page])
        self.line = 0
        return "[jp%d][jp%d]" % (other, self.page)

    def page_on(self):
        wanted = self.rng.randint(self.page, 4)
        self.line = self.line if wanted == self.page else 0
        self.page = wanted
        return "[jp%d]" % wanted

    def new_line(self):
        before = self.kept()
        self.last = (self.page, self.line, self.line_just)
        self.line += 1
        return before + ("[nl]" if self.sign.char_height else self.rng.choice(("[nl]", "[nl]", "[nl0]", "[nl4]")))

    def set_spacing(self):
        fonts = ("[/sc]", "[fo1]", "[fo2]", "[fo3]", "[fo]")
        return self.rng.choice(fonts if self.sign.char_width else fonts + ("[sc0]", "[sc1]", "[sc7]"))

    def other_just(self):
        return self.just(self.rng.choice((self.line_just, 2, 3, 4)))

    def begin(self):
        self.page, self.line, self.line_just = self.sign.just_page, 0, self.sign.just_line
        self.last = (0, 0, 0)

    def message(self):
        rng = self.rng
        self.begin()
        ways = (self.span, self.other_just, self.turn, self.page_on, self.new_line, self.set_spacing)
        weights = rng.choice(((50, 15, 10, 3, 12, 10), (60, 25, 5, 0, 5, 5), (50, 5, 25, 1, 19, 0), (85, 5, 3, 1, 5, 1)))
        count = rng.choice((4, 10, 25, 60, 150))
        parts = [way() for way in rng.choices(ways, weights, k=count)]
        if rng.random() < 0.05:
            parts.insert(rng.randint(0, count), rng.choice(("Z", "[fo9]A", "[tr1,1,0,0]", "[np]", "[tr1,1,9,9]")))
        return "".join(parts).encode()[:2048]


class NumberedMaker(GroupsMaker):
    """The same for a board with kind 6 (document 02, A6): every mix of [jl], [jp], [nl] and [tr] between spans, each as often."""

    def rectangle(self):
        """[tr] to the sign's edge, on the grid of a roomy sign: its groups begin anew, and the page justification may go back."""
        rng = self.rng
        self.line, self.last = 0, (0, 0, 0)
        return "[tr%d,%d,0,0]" % (rng.choice((1, 1, 3, 9)), rng.choice((1, 1, 2, 7)))

    def message(self):
        rng = self.rng
        self.begin()
        mixed = (self.other_just,), (self.turn, self.turn, self.page_on), (self.new_line,), (self.rectangle,)
        chosen = [ways for ways in mixed if rng.random() < 0.5]
        spans = rng.choice((1, 2, 4))
        ways = [rng.choice(rng.choice(chosen)) if chosen and rng.random() * (spans + 1) > spans else self.span
                for _ in range(rng.choice((4, 10, 25, 60, 150)))]
        return "".join(self.set_spacing() + way() if rng.random() < 0.05 else way() for way in ways).encode()[:2048]
