"""Tests of the model: the worked boards of document 01 with its numbers, the requests of document 02, and the boundaries of their
rules."""

import io
import unittest

import kambelohi_model as model

ALL_NINE = 134233320


def record(kind, body):
    return len(body).to_bytes(2, "little") + kind.to_bytes(2, "little") + bytes(body)


def configuration(width=50, height=24, char_width=0, char_height=0, font=1, line=2, page=2, on=30, off=0,
                  tags=ALL_NINE):
    body = width.to_bytes(2, "little") + height.to_bytes(2, "little")
    body += bytes([char_width, char_height, font, line, page, on, off]) + tags.to_bytes(4, "little")
    return record(1, body)


def font(number=1, height=7, spacing=2, line_spacing=3, characters=((65, 5), (66, 6), (91, 3)), version=None):
    bitmaps = [(code, width, bytes((width * height + 7) // 8)) for code, width in characters]
    if version is None:
        version = model.version_id(number, height, spacing, line_spacing, bitmaps)
    data = record(2, bytes([number, height, spacing, line_spacing]) + version.to_bytes(2, "little"))
    for code, width, bitmap in bitmaps:
        data += record(3, code.to_bytes(2, "little") + bytes([width]) + bitmap)
    return data


BOARD_P = configuration() + font()


def plain(answers):
    """Answers as tuples: on with (start, length, x, y, width, height, font) of its records, as signlist prints."""
    told = []
    for answer in answers:
        if isinstance(answer, model.On):
            told.append(("on", answer.duration, [
                (r.start, r.length, r.x, r.y, r.width, r.height, r.font) for r in answer.records]))
        elif isinstance(answer, model.Off):
            told.append(("off", answer.duration))
        elif isinstance(answer, model.End):
            told.append(("end", answer.count))
        else:
            told.append(("refused", answer.number, answer.start, answer.length, answer.detail))
    return told


def run(message, sign=BOARD_P):
    if isinstance(message, str):
        message = message.encode()
    return plain(model.listing(sign, message))


def records(message, sign=BOARD_P):
    """The records of the first answer, which has to be on."""
    answer = model.listing(sign, message.encode())[0]
    assert isinstance(answer, model.On), answer
    return answer.records


def xs(message, sign=BOARD_P):
    return [r.x for r in records(message, sign)]


def ys(message, sign=BOARD_P):
    return [r.y for r in records(message, sign)]


def last(message, sign=BOARD_P):
    return run(message, sign)[-1]


class Numbers(unittest.TestCase):
    def test_decimal(self):
        for part, bits, number in [
            (b"", 8, None), (b"+", 8, None), (b"++1", 8, None), (b"-0", 8, None), (b"0", 8, 0), (b"+255", 8, 255),
            (b"256", 8, None), (b"000000255", 8, 255), (b"65535", 16, 65535), (b"65536", 16, None),
            (b"4294967295", 32, 4294967295), (b"4294967296", 32, None), (b" 1", 8, None), (b"1 ", 8, None),
            (b"0" * 2048 + b"7", 8, 7), (b"\xd9\xa1", 8, None), (b"\xff", 8, None), (b"1_0", 8, None),
        ]:
            self.assertEqual(model.read_decimal(part, bits), number, (part, bits))

    def test_hexadecimal(self):
        for part, number in [
            (b"", None), (b"+", None), (b"-1", None), (b"fF", 255), (b"+41", 65), (b"FFFF", 65535),
            (b"10000", None), (b"0FFFF", 65535), (b"g", None), (b"0x1", None),
        ]:
            self.assertEqual(model.read_hexadecimal(part), number, part)

    def test_version_id(self):
        for part, number in [
            (b"+0FF", 255), (b"0ff", None), (b"00ff", 255), (b"000ff", None), (b"+", None), (b"", None),
            (b"\xc3\xa9\xc3\xa9", None), (b"-0FF", None),
        ]:
            self.assertEqual(model.read_version_id(part), number, part)


class Slices(unittest.TestCase):
    def check(self, message, *parts):
        message = message.encode()
        found = [message[start:start + length].decode() for start, length in model.slices(message)]
        self.assertEqual(found, list(parts))

    def test_slices(self):
        self.check("")
        self.check("AB", "AB")
        self.check("[[A", "[[", "A")
        self.check("[[[", "[[", "[")
        self.check("]]]", "]]", "]")
        self.check("A]]B", "A", "]]", "B")
        self.check("A]B", "A", "]", "B")
        self.check("[nl]A", "[nl]", "A")
        self.check("[nl[np]", "[nl", "[np]")
        self.check("[", "[")
        self.check("[]", "[]")
        self.check("[]]", "[]", "]")
        self.check("][", "]", "[")
        self.check("[a]]b", "[a]", "]", "b")
        self.check("a[[b", "a", "[[", "b")


class Values(unittest.TestCase):
    def check(self, message, *numbers):
        message = message.encode() if isinstance(message, str) else message
        lines = model.values_answer(message)
        self.assertEqual(len(lines), 2, message)
        words = [int(word) for word in lines[1].split(" ")]
        self.assertEqual(len(words), 11, message)
        # the numbers given, and then zeros
        self.assertEqual(words, [0, len(message), *numbers] + [0] * (9 - len(numbers)), message)

    def test_values(self):
        self.check("[cb]", 1, 0)
        self.check("[CB255]", 1, 1, 0, 255)
        self.check("[cb256]", 0, 6)
        self.check("[cb1,2,3]", 0, 6)
        self.check("[cf]", 2, 0)
        self.check("[cf9]", 2, 1, 0, 9)
        self.check("[cf1,2,3]", 2, 1, 1, 1, 2, 3)
        self.check("[cf1,2]", 0, 6)
        self.check("[cf1,2,3,4]", 0, 6)
        self.check("[cf999]", 0, 6)
        self.check("[pb+1,002,3]", 17, 1, 1, 1, 2, 3)
        self.check("[cr1,2,3,4,5]", 3, 1, 2, 3, 4, 0, 5)
        self.check("[cr1,2,0,0,5,6,7]", 3, 1, 2, 0, 0, 1, 5, 6, 7)
        self.check("[cr1,2,3,4]", 0, 6)
        self.check("[cr1,2,3,4,5,6]", 0, 6)
        self.check("[cr1,2,3,4,5,6,7,8]", 0, 6)
        self.check("[cr0,2,3,4,5]", 0, 6)
        self.check("[f0]", 4, 0, 0)
        self.check("[F13,255]", 4, 13, 1, 255)
        self.check("[f1,]", 4, 1, 0)
        self.check("[f14]", 0, 6)
        self.check("[f]", 0, 6)
        self.check("[f1,2,3]", 0, 6)
        self.check("[fe]", 0, 5)
        self.check("[FEED1]", 0, 5)
        self.check("[fl]", 5, 0, 0, 0)
        self.check("[flt1o99]", 5, 0, 1, 1, 1, 99)
        self.check("[FLT1O]", 5, 0, 1, 1, 0)
        self.check("[flot9]", 5, 1, 0, 0, 1, 9)
        self.check("[flt100]", 0, 6)
        self.check("[flx]", 0, 6)
        self.check("[fl\u00e9]", 0, 6)
        self.check("[/fl]", 6)
        self.check("[/fl1]", 0, 6)
        self.check("[fo]", 7, 0)
        self.check("[fo1]", 7, 1, 1, 0)
        self.check("[fo255,+0FF]", 7, 1, 255, 1, 255)
        self.check("[fo0]", 0, 6)
        self.check("[fo1,]", 0, 6)
        self.check("[fo1,12345]", 0, 6)
        self.check("[g1]", 8, 1, 0)
        self.check("[g1,2,3]", 8, 1, 1, 2, 3, 0)
        self.check("[g1,2,3,abcd]", 8, 1, 1, 2, 3, 1, 0xABCD)
        self.check("[g1,2]", 0, 6)
        self.check("[g1,0,3]", 0, 6)
        self.check("[g1,2,3,]", 0, 6)
        self.check("[hc0]", 9, 0)
        self.check("[hc+41]", 9, 65)
        self.check("[hc]", 0, 6)
        self.check("[hcD800]", 9, 0xD800)
        self.check("[jl]", 10, 0)
        self.check("[jl5]", 10, 1, 5)
        self.check("[jl6]", 0, 6)
        self.check("[jl+2]", 0, 6)
        self.check("[jp4]", 11, 1, 4)
        self.check("[jp5]", 0, 6)
        self.check("[jp02]", 0, 6)
        self.check("[ms4294967295]", 12, 4294967295, 0)
        self.check("[ms1,a,\u20ac]", 12, 1, 1, 5, 5)
        self.check("[/ms1,]", 13, 1, 1, 6, 0)
        self.check("[ms]", 0, 6)
        self.check("[mvcl10,1,2,AB]", 14, 0, 0, 0, 10, 1, 2, 12, 2)
        self.check("[MVL5R65535,255,255,]", 14, 1, 5, 1, 65535, 255, 255, 20, 0)
        self.check("[mvlr1,1,1,a,b]", 14, 1, 0, 1, 1, 1, 1, 11, 3)
        self.check("[mvl+r1,1,1,a]", 0, 6)
        self.check("[mv]", 0, 6)
        self.check("[mvl]", 0, 6)
        self.check("[mv\u00e9]", 0, 6)
        self.check("[mvc\u00e9]", 0, 6)
        self.check("[mvl\u00e9]", 0, 6)
        self.check("[mvl1\u00e9]", 0, 6)
        self.check("[nl]", 15, 0)
        self.check("[nl9]", 15, 1, 9)
        self.check("[nl+]", 0, 6)
        self.check("[nl10]", 0, 6)
        self.check("[np]", 16)
        self.check("[np1]", 0, 6)
        self.check("[pt]", 18, 0, 0)
        self.check("[pt10o5]", 18, 1, 10, 1, 5)
        self.check("[ptO5]", 18, 0, 0, 1, 5)
        self.check("[pt256]", 0, 6)
        self.check("[pt1o2o3]", 0, 6)
        self.check("[sc99]", 19, 99)
        self.check("[sc100]", 0, 6)
        self.check("[sc]", 0, 6)
        self.check("[/SC]", 20)
        self.check("[/sc1]", 0, 6)
        self.check("[tr1,2,0,65535]", 22, 1, 2, 0, 65535)
        self.check("[tr1,2,0,65536]", 0, 6)
        self.check("[tr1,2,3,4,5]", 0, 6)
        self.check("[tr0,2,3,4]", 0, 6)
        self.check("[tr1,2,3]", 0, 6)
        self.check("[]", 0, 5)
        self.check("[", 0, 5)
        self.check("]", 0, 5)
        self.check("[nl", 0, 5)
        self.check("[/]", 0, 5)
        self.check("[\u00e9]", 0, 5)
        self.check("]]", 21, 0, 1)
        self.check("\u00ff", 21, 0, 2)
        self.check("\u0100", 0, 7)
        self.check(b"A\x00", 0, 7)

    def test_whole_message(self):
        self.assertEqual(model.values_answer(b""), ["0"])
        self.assertEqual(model.values_answer(b"A" * 2049), ["4 2 0 0 0"])
        self.assertEqual(model.values_answer(b"\xff" * 2049), ["4 2 0 0 0"])
        for ill in (b"\xff", b"\xc3", b"\xc0\x80", b"\xe0\x80\x80", b"\xed\xa0\x80", b"\xf4\x90\x80\x80", b"\x80"):
            self.assertEqual(model.values_answer(b"A" + ill), ["4 3 0 0 0"])


class WorkedBoards(unittest.TestCase):
    """'## Worked boards', in its order."""

    def test_board_p(self):
        self.assertEqual(ALL_NINE, model.ALLOWED_TAGS)
        self.assertEqual(run(""), [("on", 30, []), ("end", 1)])
        self.assertEqual(run("AB"), [("on", 30, [(0, 2, 0, 0, 13, 7, 1)]), ("end", 1)])
        self.assertEqual(xs("[jl4]AB"), [37])
        self.assertEqual(xs("[jl3]AB"), [18])
        self.assertEqual(ys("A[nl]B"), [0, 10])
        self.assertEqual(xs("A[sc4]B"), [0, 9])
        self.assertEqual(xs("[[A"), [0, 5])
        self.assertEqual(last("[tr1,1,13,7]AB"), ("end", 1))
        self.assertEqual(last("[tr1,1,12,7]AB"), ("refused", 13, 12, 2, 0))
        self.assertEqual(last("[nl10]"), ("refused", 6, 0, 6, 0))
        self.assertEqual(last("[fo0]"), ("refused", 6, 0, 5, 0))
        self.assertEqual(last("[hc]"), ("refused", 6, 0, 4, 0))
        self.assertEqual(last("]"), ("refused", 5, 0, 1, 0))
        shown = records("[hc+41]")[0]
        self.assertEqual((shown.kind, shown.start, shown.length, shown.code, shown.width), (1, 0, 7, 65, 5))
        self.assertEqual(records("[hc0]")[0].width, 0)
        self.assertEqual(last("[jp3]A[jp2]B"), ("refused", 9, 11, 1, 0))
        self.assertEqual(last("[tr1,1,0,0]" * 49), ("end", 1))
        self.assertEqual(last("[tr1,1,0,0]" * 50), ("refused", 15, 0, 0, 0))
        low = configuration(height=7, char_height=7, page=3)
        self.assertEqual(last("A", low + font(height=5)), ("refused", 14, 0, 1, 0))
        self.assertEqual(ys("A", low + font(height=7)), [0])

    def test_signlist_example(self):
        self.assertEqual(run("[pt10o5]A[np]B"), [
            ("on", 10, [(8, 1, 0, 0, 5, 7, 1)]), ("off", 5),
            ("on", 10, [(13, 1, 0, 0, 6, 7, 1)]), ("off", 5), ("end", 4)])

    def test_shortcuts(self):
        """'## Shortcuts that put text elsewhere'"""
        self.assertEqual(xs("A[jl2]B"), [2, 2])
        shown = records("A[jp3][nl]B[sc3]B")
        self.assertEqual([r.y for r in shown[1:]], [13, 13])
        # half a spacing goes up: 3 and 2 make 3
        self.assertEqual(xs("[sc3]A[/sc]B"), [0, 8])


class Pages(unittest.TestCase):
    def test_times(self):
        self.assertEqual([answer[:2] for answer in run("[pt1o2][np][np][pto][np][pt9]")], [
            ("on", 1), ("off", 2), ("on", 1), ("off", 2), ("on", 30), ("on", 9), ("end", 6)])
        self.assertEqual([answer[:2] for answer in run("[pt1o2][pto3]")], [("on", 30), ("off", 3), ("end", 2)])
        sign = configuration(on=0, off=255) + font()
        self.assertEqual(run("", sign), [("on", 0, []), ("off", 255), ("end", 2)])

    def test_carrying_on(self):
        sign = configuration() + font() + font(2, 9, 1, 1, [(65, 4)])
        answers = run("[fo2][sc4][jl4][jp4][tr2,2,0,0]AA[np]AA", sign)
        self.assertEqual(answers[0][2], [(31, 2, 38, 15, 12, 9, 2)])
        self.assertEqual(answers[1][2], [(37, 2, 38, 15, 12, 9, 2)])
        # the rectangle is the whole sign again
        page = model.listing(sign, b"[tr2,2,0,0]A[np]A")
        self.assertEqual([page[0].records[0][-4:], page[1].records[0][-4:]], [(2, 2, 49, 23), (1, 1, 50, 24)])

    def test_refused_page(self):
        # the pages before a refusal are listed; a page is scanned before it is placed
        self.assertEqual(run("A[np]C[np]]"), [("on", 30, [(0, 1, 0, 0, 5, 7, 1)]), ("refused", 12, 5, 1, 67)])
        self.assertEqual(last("C[nl]]"), ("refused", 5, 5, 1, 0))


class Refusals(unittest.TestCase):
    def test_message(self):
        self.assertEqual(run(b"[" * 2048)[-1][1], 8)
        self.assertEqual(last("\u00e9" * 1024), ("refused", 12, 0, 2048, 233))
        self.assertEqual(run(b"A" * 2049), [("refused", 2, 0, 0, 0)])
        self.assertEqual(run(b"\x80" * 2049), [("refused", 2, 0, 0, 0)])
        self.assertEqual(run(b"A\x80"), [("refused", 3, 0, 0, 0)])
        self.assertEqual(run(b"\x80", b""), [("refused", 1, 0, 0, 0)])
        self.assertEqual(last("[pt255]" + "[/sc]" * 408 + "A"), ("end", 1))  # 2,048 bytes

    def test_support(self):
        for bit, message in [(3, "[fo]"), (5, "[hc41]"), (6, "[jl]"), (7, "[jp]"), (10, "[nl]"), (11, "[np]"),
                             (12, "[pt]"), (13, "[sc1]"), (13, "[/sc]"), (27, "[tr1,1,0,0]")]:
            sign = configuration(tags=ALL_NINE & ~(1 << bit)) + font()
            self.assertEqual(last(message), ("end", 2 if message == "[np]" else 1))
            self.assertEqual(last("A" + message, sign), ("refused", 5, 1, len(message), 0))
        for message in ("[cf]", "[f0]", "[f1]", "[g1]", "[fl]", "[/fl]", "[ms1]", "[mvcl1,1,1,]", "[cb]", "[pb]",
                        "[cr1,1,1,1,1]", "[zz]"):
            self.assertEqual(last(message), ("refused", 5, 0, len(message), 0))
        self.assertEqual(last("[cf999]"), ("refused", 6, 0, 7, 0))
        self.assertEqual(last("[np][cf999]"), ("refused", 6, 4, 7, 0))

    def test_position(self):
        self.assertEqual(last("\u0100[zz]"), ("refused", 7, 0, 2, 0))
        self.assertEqual(last("[zz]\u0100"), ("refused", 5, 0, 4, 0))
        self.assertEqual(last("[jl1][zz]"), ("refused", 5, 5, 4, 0))
        self.assertEqual(last("C[tr1,1,0,0][jl1]"), ("refused", 12, 0, 1, 67))
        self.assertEqual(last("C[jl1]"), ("refused", 6, 1, 5, 0))

    def test_late_six(self):
        for message in ("[jl1]", "[jl5]", "[jp1]", "[hcd800]", "[hcDFFF]", "[tr51,1,0,0]", "[tr1,25,0,0]",
                        "[tr1,1,51,1]", "[tr2,1,50,1]", "[tr1,1,1,25]", "[tr1,2,1,24]", "[tr65535,1,1,1]",
                        "[tr1,1,65535,1]"):
            self.assertEqual(last(message), ("refused", 6, 0, len(message), 0), message)
        for message in ("[tr50,24,0,0]", "[tr50,24,1,1]", "[tr1,1,50,24]"):
            self.assertEqual(last(message), ("end", 1), message)
        self.assertEqual(last("[hcd7ff]"), ("refused", 12, 0, 8, 0xD7FF))
        self.assertEqual(last("[hce000]"), ("refused", 12, 0, 8, 0xE000))
        line = configuration(char_height=8) + font()
        self.assertEqual(last("A[nl0]B[sc1]B", line), ("end", 1))
        self.assertEqual(last("A[nl1]B", line), ("refused", 6, 1, 5, 0))
        self.assertEqual(last("A[nl]B", line), ("end", 1))
        matrix = configuration(char_width=5, char_height=8) + font()
        self.assertEqual(last("[sc0]A", matrix), ("end", 1))
        self.assertEqual(last("[sc1]A", matrix), ("refused", 6, 0, 5, 0))
        for message, end in [("[tr6,9,5,8]", True), ("[tr7,9,5,8]", False), ("[tr6,9,6,8]", False),
                             ("[tr6,10,5,8]", False), ("[tr6,9,5,9]", False), ("[tr46,17,0,0]", True)]:
            self.assertEqual(last(message, matrix)[0] == "end", end, message)

    def test_eight(self):
        wide = configuration(width=4096, height=4096) + font()
        self.assertEqual(last("[nl]" * 255, wide), ("end", 1))
        self.assertEqual(last("[nl]" * 256, wide), ("refused", 8, 1020, 4, 0))
        self.assertEqual(last("[nl]" * 255 + "[tr1,1,0,0]" + "[nl]" * 255, wide)[0], "refused")  # 2,051 bytes
        self.assertEqual(last("[nl]" * 200 + "[tr1,1,0,0]" + "[nl]" * 200, wide), ("end", 1))
        self.assertEqual(last("[nl]" * 200 + "[jp3]" + "[nl]" * 200, wide), ("end", 1))
        self.assertEqual(last("[nl]" * 200 + "[jp2]" + "[nl]" * 56, wide), ("refused", 8, 1025, 4, 0))
        self.assertEqual(last("[[" * 255, wide), ("end", 1))
        self.assertEqual(last("[[" * 256, wide), ("refused", 8, 510, 2, 0))
        self.assertEqual(last("[[" * 255 + "[jl2]" + "[[" * 255, wide), ("end", 1))
        self.assertEqual(last("[[" * 255 + "[jp2]" + "[[", wide), ("refused", 8, 515, 2, 0))
        self.assertEqual(last("[[" * 255 + "[nl]" + "[[" * 255, wide), ("end", 1))
        # a line end that breaks both 6 and 8
        line = configuration(width=4096, height=4096, char_height=1) + font(height=1)
        self.assertEqual(last("[nl]" * 255 + "[nl1]", line), ("refused", 6, 1020, 5, 0))

    def test_nine(self):
        self.assertEqual(last("[jl3]A[jl2]B"), ("refused", 9, 11, 1, 0))
        self.assertEqual(last("[jl3]A[jl2][["), ("refused", 9, 11, 1, 0))
        self.assertEqual(last("[jl3]A[nl][jl2]B"), ("end", 1))
        self.assertEqual(last("[jp3]A[tr1,1,0,0][jp2]B"), ("end", 1))
        self.assertEqual(last("A[jp3]A[jp2][nl][nl]"), ("refused", 9, 16, 0, 0))
        # held against the span just before: the first line again, after another
        self.assertEqual(last("[jl3]A[nl]A[jp3]A"), ("end", 1))
        # before fonts are looked up
        self.assertEqual(last("[fo9]A[jp3]A[jp2]A"), ("refused", 9, 17, 1, 0))

    def test_fonts(self):
        self.assertEqual(last("[fo9]A"), ("refused", 10, 5, 1, 9))
        self.assertEqual(last("[fo9][nl]"), ("refused", 10, 5, 0, 9))
        self.assertEqual(last("[fo9]"), ("end", 1))
        right = model.version_ids(model.read_sign_file(BOARD_P))[0][1]
        self.assertEqual(last("[fo1,%04x]A" % right), ("end", 1))
        self.assertEqual(last("[fo1,%04X]A" % (right ^ 1)), ("refused", 11, 10, 1, 0))
        # the fault of another span of the group has the place of the span being placed
        self.assertEqual(last("A[fo9]A"), ("refused", 10, 0, 1, 9))
        self.assertEqual(last("AC"), ("refused", 12, 0, 2, 67))
        self.assertEqual(last("A[nl]C"), ("refused", 12, 5, 1, 67))
        # x of the first span comes before y, which looks at the other line's font
        self.assertEqual(last("A[nl][fo9]A"), ("refused", 10, 0, 1, 9))
        self.assertEqual(last("C[nl][fo9]A"), ("refused", 12, 0, 1, 67))
        # width before height
        self.assertEqual(last("[tr1,1,4,6]A"), ("refused", 13, 11, 1, 0))
        self.assertEqual(last("[tr1,1,0,6]A"), ("refused", 13, 11, 1, 0))
        self.assertEqual(last("[tr1,1,0,16]A[nl]A"), ("refused", 13, 12, 1, 0))
        self.assertEqual(last("[tr1,1,0,17]A[nl]A"), ("end", 1))

    def test_whole_sums(self):
        wide = configuration() + font(spacing=255, characters=[(65, 255)])
        self.assertEqual(last("A" * 200, wide), ("refused", 13, 0, 200, 0))
        self.assertEqual(last("A" * 200 + "C", wide), ("refused", 12, 0, 201, 67))

    def test_passes(self):
        self.assertEqual(last("[tr1,1,0,0]" * 49 + "A"), ("end", 1))
        self.assertEqual(last("[tr1,1,0,0]" * 50 + "C"), ("refused", 12, 550, 1, 67))
        self.assertEqual(last("[tr1,1,0,0]" * 50 + "A"), ("refused", 15, 0, 0, 0))
        self.assertEqual(last("[tr1,1,0,0]" * 51 + "C"), ("refused", 15, 0, 0, 0))
        self.assertEqual(last("[tr1,1,0,0]" * 49 + "[np]" + "[tr1,1,0,0]" * 49), ("end", 2))


class Placing(unittest.TestCase):
    def test_lines(self):
        # lines combine: the tallest font, the widest spacing, the first [nl] value
        sign = configuration(height=60) + font() + font(2, 9, 1, 8, [(65, 4)])
        self.assertEqual(ys("A[fo2]A[nl]A[fo1]A", sign), [2, 0, 17, 19])
        self.assertEqual(ys("A[nl0]A", sign), [0, 7])
        self.assertEqual(ys("A[fo2][nl]A", sign), [0, 13])
        # a half goes up: 3 and 8 make 6
        self.assertEqual(ys("[jp4]A[nl]A", sign), [43, 53])
        # a line justification has no own lines
        self.assertEqual(ys("A[jl3]A[jl4]A[nl]A", sign), [0, 0, 0, 10])

    def test_empty_lines(self):
        sign = configuration(height=60) + font()
        shown = records("[nl]A[nl][nl][nl]", sign)
        self.assertEqual([(r.kind, r.start, r.length, r.width, r.height, r.y, r.line) for r in shown], [
            (2, 0, 0, 0, 7, 0, 0), (0, 4, 1, 5, 7, 10, 1), (2, 9, 0, 0, 7, 20, 2), (2, 13, 0, 0, 7, 30, 3)])
        # [jp] does not make the line blank again, [tr] does
        self.assertEqual([r.kind for r in records("A[jp3][nl]", sign)], [0])
        self.assertEqual([r.kind for r in records("A[tr1,1,0,0][nl]", sign)], [0, 2])

    def test_middle(self):
        matrix = configuration(height=14, char_height=7, page=3)
        self.assertEqual(ys("[tr1,8,0,7]A", matrix + font(height=7)), [7])
        # the rounding can leave the rectangle where the character height does not divide the font height
        self.assertEqual(ys("[tr1,8,0,7]A", matrix + font(height=5)), [2])

    def test_centre_on_grid(self):
        matrix = configuration(width=48, char_width=6, char_height=8, line=3)
        self.assertEqual(xs("A", matrix + font(spacing=0, characters=[(65, 6)])), [18])
        self.assertEqual(xs("AA", matrix + font(spacing=0, characters=[(65, 6)])), [18])
        self.assertEqual(xs("A[hc41]", matrix + font(spacing=0, characters=[(65, 6)])), [18, 24])

    def test_measure(self):
        sign = configuration() + font(characters=[(65, 5), (66, 0)])
        self.assertEqual([r.width for r in records("BA", sign)], [5])
        self.assertEqual([r.width for r in records("AB", sign)], [7])
        self.assertEqual([r.width for r in records("BB", sign)], [0])
        self.assertEqual(xs("[hc0]A", sign), [0, 2])

    def test_carried_line_spacing(self):
        # [tr] does not restart the line spacing; a second [nl] sets it anew
        self.assertEqual(ys("A[nl9][tr1,1,0,0]A[nl]A"), [0, 0, 10])


class Capitals(unittest.TestCase):
    """Request A4 of document 02."""

    def setUp(self):
        self.board = configuration() + record(4, b"") + font()

    def test_worked(self):
        for message in ("ab", "aB", "Ab"):
            self.assertEqual(run(message, self.board), run("AB"))
        self.assertEqual(run("A[nl]aba", self.board), run("A[nl]ABA"))
        shown = records("[hc61]", self.board)[0]
        self.assertEqual((shown.kind, shown.start, shown.length, shown.code, shown.width), (1, 0, 6, 97, 5))
        self.assertEqual(last("c", self.board), ("refused", 12, 0, 1, 99))
        self.assertEqual(last("C", self.board), ("refused", 12, 0, 1, 67))
        self.assertEqual(last("ab"), ("refused", 12, 0, 2, 97))
        both = configuration() + record(4, b"") + font(characters=((65, 5), (97, 3)))
        self.assertEqual([r.width for r in records("aA", both)], [3 + 2 + 5])

    def test_letters(self):
        """a to z alone, and no capital as its small letter."""
        every = configuration(width=4096) + record(4, b"") + font(characters=[(code, 1 + code % 7) for code in range(65, 91)])
        for code in range(97, 123):
            shown = records(chr(code), every)[0]
            self.assertEqual(shown.width, 1 + (code - 32) % 7)
        for code in (64, 91, 96, 123, 0xE0, 0xFE):
            self.assertEqual(last("[hc%x]" % code, every)[1:3], (12, 0))
            self.assertEqual(last("[hc%x]" % code, every)[4], code)
        small = configuration() + record(4, b"") + font(characters=[(97, 3), (0xC9, 5), (64, 1), (91, 1)])
        self.assertEqual(last("A", small), ("refused", 12, 0, 1, 65))
        self.assertEqual(last("\u00e9", small), ("refused", 12, 0, 2, 0xE9))
        self.assertEqual(last("`", small), ("refused", 12, 0, 1, 96))
        self.assertEqual(last("{", small), ("refused", 12, 0, 1, 123))

    def test_font_at_hand(self):
        """The look-up is in the span's own font; a capital of width 0 counts as one."""
        sign = configuration() + record(4, b"") + font() + font(2, 7, 1, 3, [(97, 4), (66, 0)])
        self.assertEqual([r.width for r in records("a[fo2]a[fo1]a", sign)], [5, 4, 5])
        self.assertEqual([r.width for r in records("[fo2]ba", sign)], [4])
        self.assertEqual(last("a[fo2]A", sign), ("refused", 12, 0, 1, 65))
        self.assertEqual(last("a[nl][fo2]c", sign), ("refused", 12, 10, 1, 99))

    def test_fit(self):
        self.assertEqual(last("[tr1,1,13,7]ab", self.board), ("end", 1))
        self.assertEqual(last("[tr1,1,12,7]ab", self.board), ("refused", 13, 12, 2, 0))
        self.assertEqual(xs("[jl4]a[sc4]b", self.board), [35, 44])

    def test_told(self):
        self.assertEqual(model.stand_ins(self.board, b"aAb"), {97, 98})
        self.assertEqual(model.stand_ins(self.board, b"AB"), set())
        self.assertEqual(model.stand_ins(self.board, b"]a"), set())
        self.assertEqual(model.stand_ins(self.board, b"ca"), set())
        self.assertEqual(model.stand_ins(self.board, b"a" * 2049), set())
        self.assertEqual(model.stand_ins(BOARD_P, b"ab"), set())
        self.assertEqual(model.stand_ins(b"", b"ab"), set())


class LongTimes(unittest.TestCase):
    """Request A5 of document 02."""

    def setUp(self):
        self.board = configuration() + record(5, b"") + font()

    def times(self, message, sign):
        return [answer[:2] for answer in run(message, sign)]

    def test_worked(self):
        self.assertEqual(self.times("[pt600o65535]A", self.board), [("on", 600), ("off", 65535), ("end", 2)])
        self.assertEqual(last("[pt65536]A", self.board), ("refused", 6, 0, 9, 0))
        self.assertEqual(self.times("[pto0]A", self.board), [("on", 30), ("end", 1)])
        self.assertEqual(last("[pt256]A"), ("refused", 6, 0, 7, 0))
        self.assertEqual(self.times("[pt255o255]A", BOARD_P), [("on", 255), ("off", 255), ("end", 2)])
        with self.assertRaises(model.Refusal) as caught:
            model.read_sign_file(configuration() + record(5, b"") + record(4, b"") + font())
        self.assertEqual((caught.exception.number, caught.exception.start), (1, 23))

    def test_boundaries(self):
        for message, times in (("[pt256]", (256, 0)), ("[pto256]", (30, 256)), ("[pt65535o1]", (65535, 1)), ("[pt+0000065535]", (65535, 0)),
                               ("[pt0o65535]", (0, 65535)), ("[pt]", (30, 0)), ("[PT300O300]", (300, 300))):
            wanted = [("on", times[0])] + ([("off", times[1])] if times[1] else [])
            self.assertEqual(self.times(message, self.board)[:-1], wanted)
        for message in ("[pto65536]", "[pt65536o1]", "[pt1o65536]", "[pt100000]", "[pt-1]", "[pt1o2o3]", "[pt256,1]"):
            self.assertEqual(last(message, self.board), ("refused", 6, 0, len(message), 0))
        for message in ("[pt256]", "[pto256]", "[pt1o256]", "[pt65535]"):
            self.assertEqual(last(message), ("refused", 6, 0, len(message), 0))
            # by position, before any placing
            self.assertEqual(last("C[np]" + message, self.board), ("refused", 12, 0, 1, 67))
            self.assertEqual(last("C" + message + "]", self.board), ("refused", 5, 1 + len(message), 1, 0))

    def test_carrying_on(self):
        self.assertEqual(self.times("[pt600o700]A[np]B[np][pt]A", self.board), [
            ("on", 600), ("off", 700), ("on", 600), ("off", 700), ("on", 30), ("end", 5)])
        # the defaults keep their byte
        sign = configuration(on=255, off=255) + record(5, b"") + font()
        self.assertEqual(self.times("[pt1000]A", sign), [("on", 1000), ("off", 255), ("end", 2)])
        self.assertEqual(self.times("A", sign), [("on", 255), ("off", 255), ("end", 2)])

    def test_with_capitals(self):
        sign = configuration() + record(4, b"") + record(5, b"") + font()
        self.assertEqual(run("[pt600]ab", sign), [("on", 600, [(7, 2, 0, 0, 13, 7, 1)]), ("end", 1)])

    def test_reading(self):
        """'Reading is told whether long times hold, and without them reads as before.'"""
        for message, short, long in (("[pt256]", "0 6", "18 1 256 0 0"), ("[pt255o65535]", "0 6", "18 1 255 1 65535"),
                                     ("[pt65536]", "0 6", "0 6"), ("[pto]", "18 0 0 0 0", "18 0 0 0 0"), ("[flt256]", "0 6", "0 6"),
                                     ("[sc256]", "0 6", "0 6")):
            for wanted, long_times in ((short, False), (long, True)):
                numbers = wanted.split(" ") + ["0"] * (9 - len(wanted.split(" ")))
                self.assertEqual(model.values_answer(message.encode(), long_times), ["1", "0 %d %s" % (len(message), " ".join(numbers))])
        self.assertEqual(model.values_answer(b"\xff", True), ["4 3 0 0 0"])


class GroupNumbers(unittest.TestCase):
    """Request A6 of document 02."""

    def setUp(self):
        self.board = configuration() + record(6, b"") + font()
        self.wide = configuration(width=4096, height=4096) + record(6, b"") + font()

    def numbered(self, message, sign=None):
        return [(r.x, r.line, r.span) for r in records(message, sign or self.board)]

    def test_worked(self):
        self.assertEqual(self.numbered("A[jl2]B"), [(0, 0, 0), (7, 0, 1)])
        self.assertEqual(self.numbered("A[nl]B[jp3][jp2]B"), [(0, 0, 0), (0, 1, 0), (7, 0, 1)])
        # 256 spans in one group
        self.assertEqual(last("[jl2][[" * 255, self.wide), ("end", 1))
        self.assertEqual(last("[jl2][[" * 256, self.wide), ("refused", 8, 255 * 7 + 5, 2, 0))
        self.assertEqual(self.numbered("A[jl2]B", BOARD_P), [(2, 0, 0), (2, 0, 0)])

    def test_numbers(self):
        self.assertEqual(self.numbered("A[jl]B[jl3]A[jl3]B[jl4]A[jl4]B"), [
            (0, 0, 0), (7, 0, 1), (18, 0, 0), (25, 0, 1), (37, 0, 0), (44, 0, 1)])
        # left and come back to, on another line and in another pass
        self.assertEqual([r.span for r in records("A[jl3]A[nl][jl2]A[jl3]A[jl3]A[tr1,1,0,0]A[jl3]A", self.wide)], [0, 0, 0, 0, 1, 0, 1])
        # an empty span counts
        shown = records("[nl][jp3][jp2]AB[nl]A", self.wide)
        self.assertEqual([(r.kind, r.line, r.span, r.x) for r in shown], [(2, 0, 0, 0), (0, 0, 1, 2), (0, 1, 0, 0)])
        # so that the next one stands behind it, an empty one too
        self.assertEqual([r.span for r in records("[nl][jp3][jp2][nl]A", self.wide)], [0, 1, 0])
        # lines of one number in two page justifications are two groups
        self.assertEqual([r.span for r in records("A[jp3]B[nl]A[jp4]B[jl]A", self.wide)], [0, 0, 0, 0, 1])
        # a [jl] that is gone back from is refused with 9, as before
        self.assertEqual(last("A[jl4]B[jl2]A", self.board), ("refused", 9, 12, 1, 0))
        # messages without a repeated justification are as without the record
        for message in ("AB", "A[sc4]B", "[[A", "A[nl]B", "[jl4]A[fo]B", "A[jl3]B[jl4]A[nl]B", "[jp3]A[nl][nl]B"):
            self.assertEqual(model.listing(self.wide, message.encode()),
                             model.listing(configuration(width=4096, height=4096) + font(), message.encode()))

    def test_eight(self):
        # a span's number no longer starts again
        plain = configuration(width=4096, height=4096) + font()
        self.assertEqual(last("[[" * 255 + "[jl2][[", plain), ("end", 1))
        self.assertEqual(last("[[" * 255 + "[jl2][[", self.wide), ("refused", 8, 515, 2, 0))
        self.assertEqual(last("[[" * 255 + "[jl3][[", self.wide), ("end", 1))
        self.assertEqual(last("[[" * 255 + "[jp3][jp2][[", plain), ("end", 1))
        self.assertEqual(last("[[" * 255 + "[jp3][jp2][[", self.wide), ("refused", 8, 520, 2, 0))
        self.assertEqual(last("[[" * 255 + "[tr1,1,0,0]" + "[[" * 255, self.wide), ("end", 1))
        self.assertEqual(last("[[" * 255 + "[nl]" + "[[" * 255, self.wide), ("end", 1))
        # an empty span can be a group's 256th; its place is its slice's
        self.assertEqual(last("[[" * 255 + "[nl][jp3][jp2][nl]", self.wide), ("refused", 8, 524, 4, 0))
        self.assertEqual(last("[[" * 254 + "[nl][jp3][jp2][nl]", self.wide), ("end", 1))
        self.assertEqual(last("[[" * 255 + "[nl][jp3][jp2][nl]", plain), ("end", 1))
        # line ends as before
        self.assertEqual(last("[nl]" * 255, self.wide), ("end", 1))
        self.assertEqual(last("[nl]" * 256, self.wide), ("refused", 8, 1020, 4, 0))
        self.assertEqual(last("[hc41]" * 255 + "[hcd800]", self.wide), ("refused", 6, 1530, 8, 0))


class SignFiles(unittest.TestCase):
    def refused(self, data, start):
        with self.assertRaises(model.Refusal) as caught:
            model.read_sign_file(data)
        refusal = caught.exception
        self.assertEqual((refusal.number, refusal.start, refusal.length, refusal.detail), (1, start, 0, 0))

    def test_cut_at_every_byte(self):
        starts = [0]
        while starts[-1] < len(BOARD_P):
            starts.append(starts[-1] + 4 + model.little(BOARD_P[starts[-1]:starts[-1] + 2]))
        self.assertEqual(starts[-1], len(BOARD_P))
        for length in range(len(BOARD_P)):
            if length in starts[1:]:
                model.read_sign_file(BOARD_P[:length])
            else:
                self.refused(BOARD_P[:length], max(start for start in starts if start <= length))
        self.refused(BOARD_P + b"\0", len(BOARD_P))

    def test_configuration(self):
        for wrong in ({"width": 0}, {"width": 4097}, {"height": 0}, {"height": 4097}, {"font": 0}, {"line": 1},
                      {"line": 5}, {"page": 1}, {"page": 5}, {"line": 0}, {"page": 0}):
            self.refused(configuration(**wrong) + font(), 0)
        for bit in range(32):
            data = configuration(tags=1 << bit)
            if ALL_NINE >> bit & 1:
                model.read_sign_file(data)
            else:
                self.refused(data, 0)
        for right in ({"width": 1}, {"width": 4096}, {"height": 1}, {"height": 4096}, {"font": 255}, {"line": 4},
                      {"page": 4}, {"char_width": 255}, {"char_height": 255}, {"on": 0}, {"off": 255}, {"tags": 0}):
            model.read_sign_file(configuration(**right))
        self.refused(record(1, configuration()[4:-1]), 0)
        self.refused(record(1, configuration()[4:] + b"\0"), 0)
        self.refused(font() + configuration(), 0)
        self.refused(configuration() + configuration(), 19)
        for kind in (0, 7, 256, 257, 260, 65535):
            self.refused(configuration() + record(kind, b""), 19)

    def test_options(self):
        """An empty record of an option kind stands directly after kind 1, in the order of the kinds; else 1 at its offset."""
        first, rest = configuration(), font()
        for kind in model.OPTIONS:
            option = record(kind, b"")
            self.assertEqual(model.read_sign_file(first + option + rest).options, [kind])
            self.assertEqual(model.read_sign_file(first + option).options, [kind])
            # anywhere else, behind each of the other records, or before them all
            self.refused(option + first + rest, 0)
            for place in (29, 41, 54, 64):
                self.refused((first + rest)[:place] + option + (first + rest)[place:], place)
            # twice
            self.refused(first + option + option + rest, 23)
            self.refused(first + option + rest + option, 68)
            # with a body, which may be cut off
            for body in (b"\0", bytes(4), bytes(15)):
                self.refused(first + record(kind, body) + rest, 19)
                self.refused(first + option + record(kind, body) + rest, 23)
            self.refused(first + record(kind, b"\0")[:-1], 19)
            for length in (1, 2, 3):
                self.refused(first + option[:length], 19)
            # what breaks a rule behind it has its own offset
            self.refused(first + option + first, 23)
            self.refused(first + option + record(3, b"A\0\0"), 23)
            self.refused(first + option + rest + b"\0", 68)

    def test_order_of_options(self):
        def joined(*kinds):
            return configuration() + b"".join(record(kind, b"") for kind in kinds) + font()

        self.assertEqual(model.read_sign_file(joined(4, 5)).options, [4, 5])
        self.refused(joined(5, 4), 23)
        self.refused(joined(4, 5, 4), 27)
        self.refused(joined(4, 5, 5), 27)
        self.refused(joined(4, 4, 5), 23)
        self.refused(configuration() + record(4, b"") + font() + record(5, b""), 68)
        for kinds in ((4, 6), (5, 6), (4, 5, 6)):
            self.assertEqual(model.read_sign_file(joined(*kinds)).options, list(kinds))
        for kinds, start in (((6, 4), 23), ((6, 5), 23), ((4, 6, 5), 27), ((5, 6, 4), 27), ((4, 5, 6, 6), 31), ((4, 5, 6, 4), 31),
                             ((6, 6), 23), ((4, 5, 6, 7), 31)):
            self.refused(joined(*kinds), start)

    def test_fonts(self):
        self.refused(configuration() + record(2, [0, 7, 2, 3, 0, 0]), 19)
        self.refused(configuration() + record(2, [1, 0, 2, 3, 0, 0]), 19)
        self.refused(configuration() + record(2, [1, 7, 2, 3, 0]), 19)
        self.refused(configuration() + record(2, [1, 7, 2, 3, 0, 0, 0]), 19)
        many = [font(number, characters=[]) for number in range(1, 26)]
        model.read_sign_file(configuration() + b"".join(many[:24]))
        self.refused(configuration() + b"".join(many), 19 + 24 * 10)
        self.refused(configuration() + many[0] + many[1] + many[0], 39)

    def test_characters(self):
        head = configuration() + font(height=3, characters=[])
        self.refused(configuration() + record(3, [65, 0, 0]), 19)
        self.refused(head + record(3, [0, 0, 0]), 29)
        self.refused(head + record(3, [65, 0]), 29)
        self.refused(head + record(3, []), 29)
        for width, size in [(0, 0), (1, 1), (2, 1), (3, 2), (5, 2), (6, 3), (255, 96)]:
            model.read_sign_file(head + record(3, bytes([65, 0, width]) + bytes(size)))
            self.refused(head + record(3, bytes([65, 0, width]) + bytes(size + 1)), 29)
            if size:
                self.refused(head + record(3, bytes([65, 0, width]) + bytes(size - 1)), 29)
        codes = [(code, 0) for code in range(1, 258)]
        model.read_sign_file(configuration() + font(characters=codes[:256]))
        self.refused(configuration() + font(characters=codes), 29 + 256 * 7)
        self.refused(configuration() + font(characters=[(65, 1), (66, 1), (65, 2)]), 29 + 16)
        model.read_sign_file(configuration() + font(1) + font(2))

    def test_size(self):
        # 19 for the configuration, 10 for a font, 7 and the bitmap for a character; a character of 255 x 254 pixels
        # takes 8,104 bytes
        data = configuration() + font(height=254, characters=[(code, 255) for code in range(1, 9)])
        # a font 8 high takes a byte for each pixel of width
        room = 65535 - len(data) - 10
        widths = []
        while room > 0:
            widths.append(min(255, room - 7))
            room -= 7 + widths[-1]
            if 0 < room < 8:
                widths[-1] -= 8
                room += 8
        data += font(2, height=8, characters=list(enumerate(widths, start=1)))
        self.assertEqual(len(data), 65535)
        model.read_sign_file(data)
        self.refused(data + b"\0", 0)
        self.refused(bytes(65536), 0)
        self.refused(b"", 0)


class VersionIds(unittest.TestCase):
    def test_crc(self):
        self.assertEqual(model.crc_16_ibm_sdlc(b"123456789"), 0x906E)

    def test_encoding(self):
        self.assertEqual(model.oer_length(127), b"\x7f")
        self.assertEqual(model.oer_length(128), b"\x81\x80")
        self.assertEqual(model.oer_length(256), b"\x82\x01\x00")
        # no character: number, height, spacings, then the count 0 in one octet
        crc = model.crc_16_ibm_sdlc(bytes([1, 7, 2, 3, 1, 0]))
        self.assertEqual(model.version_id(1, 7, 2, 3, []), crc >> 8 | (crc & 255) << 8)
        characters = [(code, 0, b"") for code in range(1, 257)]
        data = bytes([1, 7, 2, 3, 2, 1, 0]) + b"".join(code.to_bytes(2, "big") + b"\0\0" for code in range(1, 257))
        crc = model.crc_16_ibm_sdlc(data)
        self.assertEqual(model.version_id(1, 7, 2, 3, characters), crc >> 8 | (crc & 255) << 8)


class Streams(unittest.TestCase):
    def answer(self, text):
        lines = []
        model.answer_stream(io.StringIO(text, newline="\n"), lines.append)
        return lines

    def test_stream(self):
        sign = BOARD_P.hex()
        version = model.version_ids(model.read_sign_file(BOARD_P))[0][1]
        text = "kambelohi cases 1\nD 8 35\nS %s\nI\nL 41\nL -\nS -\nL 41\nI\nX 6\nend 6\n" % sign
        with self.assertRaises(model.StreamError):
            self.answer(text)
        text = text.replace("X 6\nend 6", "X 36\nend 7")
        self.assertEqual(self.answer(text), [
            "kambelohi answers 1", "D 8 35", "1 5", "S " + sign, "I", "1", "1 %d" % version, "L 41", "1 30 1",
            "0 0 1 0 0 0 5 7 1 0 0 1 1 50 24", "3 1", "L -", "1 30 0", "3 1", "S -", "L 41", "4 1 0 0 0", "I",
            "4 1 0 0 0", "X 36", "1 6", "end 7"])

    def test_errors(self):
        for text in ("", "kambelohi cases 1\n", "kambelohi cases 2\nend 0\n", "kambelohi cases 1\nend 1\n",
                     "kambelohi cases 1\nend 0\n\n", "kambelohi cases 1\nD 9 35\nend 1\n",
                     "kambelohi cases 1\nX 3G\nend 1\n", "kambelohi cases 1\nX AA\nend 1\n",
                     "kambelohi cases 1\nX  \nend 1\n", "kambelohi cases 1\nX\nend 1\n",
                     "kambelohi cases 1\nend 0", "kambelohi cases 1\nend 00\n", "kambelohi cases 1\n\nend 0\n"):
            with self.assertRaises(model.StreamError):
                self.answer(text)
        self.assertEqual(self.answer("kambelohi cases 1\nend 0\n"), ["kambelohi answers 1", "end 0"])

    def test_long_times(self):
        message = b"[pt256]".hex()
        self.assertEqual(self.answer("kambelohi cases 1\nV %s\nT %s\nend 2\n" % (message, message)), [
            "kambelohi answers 1", "V " + message, "1", "0 7 0 6 0 0 0 0 0 0 0", "T " + message, "1", "0 7 18 1 256 0 0 0 0 0 0", "end 2"])


if __name__ == "__main__":
    unittest.main()
