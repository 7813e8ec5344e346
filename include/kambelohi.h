/*
 * Kambelohi: the message core of lamp boards.
 *
 * Six calls: kambelohi_read says what stands at an offset of a MULTI message, kambelohi_read_all what all its slices say,
 * kambelohi_list where the text of a page stands on a sign, kambelohi_place the same with two counts, kambelohi_list_all the same
 * of all its pages at once, and kambelohi_sentence writes a refusal as an English sentence. Link
 * target/staticlib/libkambelohi.a (x86-64 Linux), which `tools/staticlib` writes. Of the C library it needs memcpy and memset,
 * and nothing else.
 *
 * What is said here of answers, readings, records and sentences follows from contracts that are proved of the code
 * (crates/kambelohi_c/src/lib.rt), for any bytes, any lengths, any offset or answer number, and any numbers of a refusal. A call
 * always returns, and keeps nothing.
 *
 * What the proofs take for granted, and no call can check, is that every pointer
 * - is not null, even where its length is 0;
 * - points to memory that may be read for the whole of its length and has been set, to whatever values, and that nobody else
 *   writes before the call returns;
 * - if it is that of the lent records: points to span_count of them, may also be written, is aligned as kambelohi_span asks
 *   (2 bytes), and shares no byte with sign file or message, and nobody else reads the records before the call returns;
 * - if it is that of the lent answers: the same of answer_count answers, which also share no byte with the records;
 * - if it is that of the lent readings: points to reading_count of them, may also be written, is aligned as kambelohi_reading
 *   asks (4 bytes), and shares no byte with the message, and nobody else reads the readings before the call returns;
 * - if it is that of a sentence's buffer: points to buffer_len bytes that may also be written, and that nobody else reads before
 *   the call returns.
 *
 * Stack: a call takes at most the bytes below, arguments and return address included, in the archive for x86-64 as it is built
 * today; tests/stack measures them. A short message takes as much as a long one. Not counted: what a thread takes to start, what
 * a signal handler or an interrupt takes on the same stack, and what the loader takes to find memcpy and memset in a program
 * that is not linked with -z now.
 */
#ifndef KAMBELOHI_H
#define KAMBELOHI_H

#include <stdbool.h>
#include <stddef.h>
#include <stdint.h>

#ifdef __cplusplus
extern "C" {
#endif

/* Bytes of stack that a call takes at most. */
enum {
    KAMBELOHI_READ_STACK = 512,
    KAMBELOHI_READ_ALL_STACK = 512,
    KAMBELOHI_LIST_STACK = 163840,
    KAMBELOHI_PLACE_STACK = 163840,
    KAMBELOHI_LIST_ALL_STACK = 237568,
    KAMBELOHI_SENTENCE_STACK = 80
};

/* A longer sign file is refused with 1, a longer message with 2. */
enum { KAMBELOHI_SIGN_FILE_BYTES = 65535, KAMBELOHI_MESSAGE_BYTES = 2048 };

/*
 * A lent slice of fewer records or readings is refused with 4, a buffer of fewer bytes with 16. No page, no message and no
 * sentence has more of them.
 */
enum { KAMBELOHI_RECORDS = 1400, KAMBELOHI_READINGS = 2048, KAMBELOHI_SENTENCE_BYTES = 96 };

/* kambelohi_list_all: fewer answers or records are refused with 4. No message has more of them. */
enum { KAMBELOHI_ALL_ANSWERS = 1026, KAMBELOHI_ALL_RECORDS = 2048 };

/*
 * The refusals of all calls: number, start, length and detail. What is not said of a refusal is 0.
 *
 * kambelohi_read has 2 to 7, in this order: 2 and 3 are of the whole message, 4 of the offset, 5 to 7 of the slice there.
 *
 * kambelohi_read_all has 2 to 4, in this order; 5 to 7 are told of each slice and do not end the call.
 *
 * kambelohi_list and kambelohi_place have 1 to 4 in this order, for every answer number. Then page after page: 5 to 7 by
 * position in the message, up to and with the page's [np]; then pass after pass (a pass ends at [tr], [np] or the end), 6 and 8
 * by position, 9, then 10 to 14 span by span, x before y, and 15.
 *
 * kambelohi_list_all has 1 to 4 in this order, and then the first that kambelohi_list has for answers 0, 1 and on.
 *
 * kambelohi_sentence has 16.
 *
 * Place of the slice: start and length of the text or tag in the message. Place of the span: those of its record.
 *
 * In quotation marks: the words that kambelohi_sentence has for the number. All other numbers are "unknown".
 */
enum {
    KAMBELOHI_SIGN_FILE = 1,         /* "sign file is damaged, load it again"; it breaks a rule; start: the offset in it of the
                                        first record that fails, 0 if the file is too long or empty */
    KAMBELOHI_TOO_LONG = 2,          /* "message is over 2,048 bytes, shorten it" */
    KAMBELOHI_ILL_FORMED = 3,        /* "message is not UTF-8, type it again"; it is not well-formed */
    KAMBELOHI_BAD_CALL = 4,          /* "room is too small, or offset is wrong"; kambelohi_list: fewer than KAMBELOHI_RECORDS
                                        records are lent; kambelohi_read_all: fewer than KAMBELOHI_READINGS; kambelohi_read:
                                        the offset is past the message or inside a character */
    KAMBELOHI_BAD_TAG = 5,           /* "tag is unknown, or not for this board"; no known tag, or a stray bracket;
                                        kambelohi_list: or a tag that the sign does not support, or field 0; place of the
                                        slice */
    KAMBELOHI_BAD_PARAMETER = 6,     /* "value in this tag cannot be used here"; a bad parameter; kambelohi_list: also one that
                                        this sign cannot follow, as a [tr] that is not inside it; place of the slice */
    KAMBELOHI_BAD_CODE = 7,          /* "text has a character no board can show"; a code point outside 1 to 255; place of the
                                        slice */
    KAMBELOHI_TOO_MANY = 8,          /* "too many lines, or texts in one line"; the 256th line end or span since its number
                                        restarted; where the sign file numbers the spans of a group one after the other (a
                                        record of kind 6), the 256th of a group; place of the slice */
    KAMBELOHI_GOES_BACK = 9,         /* "justification goes back, change order"; place of the span */
    KAMBELOHI_NO_FONT = 10,          /* "font is not on this board"; detail: its number; place of the span */
    KAMBELOHI_FONT_VERSION = 11,     /* "font has another version on this board"; its version id differs; place of the span */
    KAMBELOHI_NO_CHARACTER = 12,     /* "character is not in this font"; nor, where the sign file lets capitals stand in for a to
                                        z (a record of kind 4), its capital; detail: its code; place of the span */
    KAMBELOHI_TOO_BIG = 13,          /* "text does not fit its rectangle"; its width or height; place of the span */
    KAMBELOHI_TOO_LOW = 14,          /* "font is too tall for this line grid"; the rounded baseline is less than the font's
                                        height; place of the span */
    KAMBELOHI_TOO_MANY_PASSES = 15,  /* "too many text rectangles on one page"; the page's 51st pass: 50 [tr] on a page */
    KAMBELOHI_SHORT_BUFFER = 16      /* "room for the sentence is too small"; kambelohi_sentence: the buffer has fewer than
                                        KAMBELOHI_SENTENCE_BYTES bytes */
};

/* ---- reading */

/* Kinds of an answer of kambelohi_read. */
enum {
    KAMBELOHI_SLICE = 0,   /* a slice: start and length in message bytes; code and n say its value */
    KAMBELOHI_END = 1,     /* the offset is the message's length */
    KAMBELOHI_REFUSED = 2  /* number, start, length and detail of a refusal */
};

/*
 * Values by their code, with what n holds, from n[0] on; the rest of n is 0.
 *
 * "option" is 0 0, or 1 and the number. A colour is 0 N 0 0, or 1 and red, green, blue; "option of colour" is five zeros, or 1
 * and the colour. A text is its start and length in the message. Justifications are the numbers of NTCIP 1203.
 */
enum {
    KAMBELOHI_COLOR_BACKGROUND = 1,           /* option of colour */
    KAMBELOHI_COLOR_FOREGROUND = 2,           /* option of colour */
    KAMBELOHI_COLOR_RECTANGLE = 3,            /* x y width height, colour */
    KAMBELOHI_FIELD = 4,                      /* id, option of width */
    KAMBELOHI_FLASH = 5,                      /* 0 on first, 1 off first; the two times in that order, each an option */
    KAMBELOHI_FLASH_END = 6,                  /* none */
    KAMBELOHI_FONT = 7,                       /* 0 0 0 0, or 1, number, option of version id */
    KAMBELOHI_GRAPHIC = 8,                    /* number, then 0 0 0 0 0, or 1, x y, option of version id */
    KAMBELOHI_HEXADECIMAL_CHARACTER = 9,      /* code */
    KAMBELOHI_JUSTIFICATION_LINE = 10,        /* option of 1 to 5 */
    KAMBELOHI_JUSTIFICATION_PAGE = 11,        /* option of 1 to 4 */
    KAMBELOHI_MANUFACTURER_SPECIFIC = 12,     /* number, then 0 0 0, or 1 and a text */
    KAMBELOHI_MANUFACTURER_SPECIFIC_END = 13, /* number, then 0 0 0, or 1 and a text */
    KAMBELOHI_MOVING_TEXT = 14,               /* 0 circular, 1 linear; delay (0 for circular); 0 left, 1 right; width, pixels,
                                                 deciseconds; text */
    KAMBELOHI_NEW_LINE = 15,                  /* option of spacing */
    KAMBELOHI_NEW_PAGE = 16,                  /* none */
    KAMBELOHI_PAGE_BACKGROUND = 17,           /* option of colour */
    KAMBELOHI_PAGE_TIME = 18,                 /* option of on, option of off */
    KAMBELOHI_SPACING_CHARACTER = 19,         /* spacing */
    KAMBELOHI_SPACING_CHARACTER_END = 20,     /* none */
    KAMBELOHI_TEXT = 21,                      /* text; of [[ and ]] the first bracket: the slice's start, and 1 */
    KAMBELOHI_TEXT_RECTANGLE = 22             /* x y width height, as in the tag */
};

/* What is read at an offset of a message. What a kind does not use is 0. */
typedef struct {
    uint32_t kind;
    uint32_t number;
    uint32_t start;
    uint32_t length;
    uint32_t detail;
    uint32_t code;
    uint32_t n[8];
} kambelohi_read_answer;

/*
 * Reads the slice that starts at an offset of a message. From offset 0 on, the next slice is at start + length, also after a
 * refusal from 5 to 7; joined, the slices are the message.
 *
 * long_times: [pt] takes 0 to 65535 tenths of a second for each time, as on a sign whose file has a record of kind 5; else 0 to
 * 255. No other slice reads otherwise.
 */
kambelohi_read_answer kambelohi_read(const uint8_t *msg, size_t len, size_t offset, bool long_times);

/* ---- reading all slices */

/* Kinds of an answer of kambelohi_read_all. */
enum {
    KAMBELOHI_ALL_READ = 1,         /* all slices are read; count is how many there are */
    KAMBELOHI_READ_ALL_REFUSED = 2  /* number, start, length and detail of a refusal */
};

/*
 * A slice of a message. Where number is 0: code and n say its value, as in kambelohi_read_answer. Else number is that of its
 * refusal, 5 to 7, and code and n are 0.
 */
typedef struct {
    uint32_t start;
    uint32_t length;
    uint32_t number;
    uint32_t code;
    uint32_t n[8];
} kambelohi_reading;

/* What kambelohi_read_all answers. What a kind does not use is 0. */
typedef struct {
    uint16_t kind;
    uint16_t count;
    uint16_t number;
    uint16_t start;
    uint16_t length;
    uint16_t detail;
} kambelohi_read_all_answer;

/*
 * Reads every slice of a message, one after the other, also after one that fails: each is what kambelohi_read says at its start,
 * with the same long_times. The first starts at 0, the next at start + length of the one before, and the last ends at the message's
 * end. They are written to the first elements of readings; all others stay as they were, and a refusal writes nothing.
 */
kambelohi_read_all_answer kambelohi_read_all(const uint8_t *msg, size_t len, bool long_times, kambelohi_reading *readings,
                                             size_t reading_count);

/* ---- listing */

/* Kinds of an answer of kambelohi_list and kambelohi_place. */
enum {
    KAMBELOHI_ON = 1,           /* a page that is on for duration tenths of a second; count records are written */
    KAMBELOHI_OFF = 2,          /* a dark page of duration tenths */
    KAMBELOHI_LAST = 3,         /* the message is over; count is the count of its answers, on and off */
    KAMBELOHI_LIST_REFUSED = 4  /* number, start, length and detail of a refusal */
};

/* Kinds of a span. */
enum { KAMBELOHI_SPAN_TEXT = 0, KAMBELOHI_SPAN_HEXADECIMAL = 1, KAMBELOHI_SPAN_EMPTY_LINE = 2 };

/* A placed span. */
typedef struct {
    uint16_t kind;        /* a text, the character of an [hc], or an empty line */
    uint16_t start;       /* start and length in message bytes: of [[ and ]] the slice's start and 1, of an [hc] its tag, */
    uint16_t length;      /* of an empty line the start of its [nl] and 0 */
    uint16_t code;        /* the character of an [hc], else 0 */
    uint16_t x;           /* x and y from 0, width and height, in pixels */
    uint16_t y;
    uint16_t width;
    uint16_t height;
    uint16_t font;        /* the font's number */
    uint16_t line;        /* the line's number, from 0 */
    uint16_t span;        /* the span's number, from 0 */
    uint16_t rect_x;      /* the text rectangle: x and y from 1, as in [tr]; sizes of 0 are extended to the sign's edge */
    uint16_t rect_y;
    uint16_t rect_width;
    uint16_t rect_height;
} kambelohi_span;

/* An answer of a listing. What a kind does not use is 0. */
typedef struct {
    uint16_t kind;
    uint16_t duration;
    uint16_t count;
    uint16_t number;
    uint16_t start;
    uint16_t length;
    uint16_t detail;
} kambelohi_list_answer;

/*
 * Lists answer number answer, from 0, of a message on a sign file. The records of an on answer are written to the first
 * elements of spans; all others stay as they were, and off, the end and a refusal write nothing.
 *
 * Asked for answers 0, 1 and on, the end or a refusal comes after at most 2 * (number of [np] + 1) answers. On slices of
 * KAMBELOHI_RECORDS records or more, each answer after a refused one is that refusal, and each after the end is the end
 * again, with the same count; 1 to 3 come for every answer number, on slices of any length. The place of 1 lies within the sign
 * file, that of any other refusal within the message.
 */
kambelohi_list_answer kambelohi_list(const uint8_t *file, size_t file_len, const uint8_t *msg, size_t msg_len, size_t answer,
                                     kambelohi_span *spans, size_t span_count);

/* ---- placing: the listing with counts */

/* An answer of a listing, with the kinds of kambelohi_list, and two counts. What a kind does not use is 0. */
typedef struct {
    uint8_t kind;
    uint8_t number;
    uint16_t duration;
    uint16_t count;
    uint16_t start;
    uint16_t length;
    uint16_t detail;
    uint16_t looked;  /* of an on page: the characters that its measures looked up, which are those that its records print; else 0 */
    uint16_t spans;   /* of an on page: the spans placed, as many as its records; else 0 */
} kambelohi_place_answer;

/*
 * Answers what kambelohi_list answers, writes what that writes, and beside it gives the counts of the page. Each span is measured
 * once, and each character that it prints is looked up once: a text has as many as it has code points, an [hc] one, an empty line
 * none. An off answer, the end and a refusal have 0 as both counts.
 */
kambelohi_place_answer kambelohi_place(const uint8_t *file, size_t file_len, const uint8_t *msg, size_t msg_len, size_t answer,
                                       kambelohi_span *spans, size_t span_count);

/* ---- the whole listing */

/* Kinds of an answer of kambelohi_list_all. */
enum {
    KAMBELOHI_ALL_LISTED = 1,   /* answers and records are the counts of what is written */
    KAMBELOHI_ALL_REFUSED = 2   /* number, start, length and detail of a refusal */
};

/* An answer of a whole listing. */
typedef struct {
    uint16_t kind;      /* KAMBELOHI_ON or KAMBELOHI_OFF */
    uint16_t duration;  /* tenths of a second */
    uint16_t first;     /* its records are count ones from number first on; an off answer has none */
    uint16_t count;
} kambelohi_shown;

/* What kambelohi_list_all answers. What a kind does not use is 0. */
typedef struct {
    uint16_t kind;
    uint16_t answers;
    uint16_t records;
    uint16_t number;
    uint16_t start;
    uint16_t length;
    uint16_t detail;
} kambelohi_list_all_answer;

/*
 * Lists all answers of a message on a sign file: the answers are written to the first elements of shown, and their records,
 * answer after answer, to the first of spans; all others stay as they were, and a refusal writes nothing. Answer n and its records
 * are those that kambelohi_list gives for n on a slice of KAMBELOHI_RECORDS records or more, and the refusal is the first that it
 * gives; the end is not counted. The pages are gone through once, where the calls go through those before each.
 */
kambelohi_list_all_answer kambelohi_list_all(const uint8_t *file, size_t file_len, const uint8_t *msg, size_t msg_len,
                                             kambelohi_shown *shown, size_t answer_count, kambelohi_span *spans,
                                             size_t span_count);

/* ---- the refusal as a sentence */

/* Kinds of an answer of kambelohi_sentence. */
enum {
    KAMBELOHI_WRITTEN = 1,          /* the sentence is written; count is its length in bytes */
    KAMBELOHI_SENTENCE_REFUSED = 2  /* number, start, length and detail of a refusal */
};

/* What kambelohi_sentence answers. What a kind does not use is 0. */
typedef struct {
    uint16_t kind;
    uint16_t count;
    uint16_t number;
    uint16_t start;
    uint16_t length;
    uint16_t detail;
} kambelohi_sentence_answer;

/*
 * Writes the refusal with these numbers to the first bytes of buffer, as a sentence:
 *
 *     Refusal 13 at byte 8, length 2, detail 0: text does not fit its rectangle.
 *
 * Decimals have no leading zeros, the words have at most 40 bytes, all bytes are printable ASCII, and the only full stop is the
 * last; there is no zero byte at the end. The words of two numbers in use differ. From the sentence alone all four numbers can be
 * read back. The bytes past it stay as they were.
 *
 * A buffer of fewer than KAMBELOHI_SENTENCE_BYTES bytes is refused with 16, however short the sentence would be, and stays as it
 * was. Any numbers are taken, whether or not a call can answer them.
 */
kambelohi_sentence_answer kambelohi_sentence(uint8_t number, uint16_t start, uint16_t length, uint16_t detail, uint8_t *buffer,
                                             size_t buffer_len);

#ifdef __cplusplus
}
#endif

#endif
