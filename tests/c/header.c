/*
 * include/kambelohi.h as a C program has it, and as a C++ program: the sizes and offsets of its structs (asserted while it is compiled),
 * and its calls. Its argument is boards/p/sign.bin. It ends with 1 where anything differs.
 *
 * Sign file, message, answers, records, readings and buffer stand each before a page that nobody may touch, so a byte read or written past a
 * length ends the program. Answers, records, readings and buffer are patterned before each call, and what the answer does not count must be as
 * it was.
 */
#define _DEFAULT_SOURCE
#include "kambelohi.h"

#include <assert.h>
#include <stdarg.h>
#include <stdio.h>
#include <stdlib.h>
#include <string.h>
#include <sys/mman.h>
#include <unistd.h>

/* ---- the structs */

#define FIELD(type, field, at, size) \
    static_assert(offsetof(type, field) == (at) && sizeof(((type *)0)->field) == (size), #type "." #field)

static_assert(sizeof(kambelohi_read_answer) == 56, "size of kambelohi_read_answer");
FIELD(kambelohi_read_answer, kind, 0, 4);
FIELD(kambelohi_read_answer, number, 4, 4);
FIELD(kambelohi_read_answer, start, 8, 4);
FIELD(kambelohi_read_answer, length, 12, 4);
FIELD(kambelohi_read_answer, detail, 16, 4);
FIELD(kambelohi_read_answer, code, 20, 4);
FIELD(kambelohi_read_answer, n, 24, 32);

static_assert(sizeof(kambelohi_reading) == 48, "size of kambelohi_reading");
FIELD(kambelohi_reading, start, 0, 4);
FIELD(kambelohi_reading, length, 4, 4);
FIELD(kambelohi_reading, number, 8, 4);
FIELD(kambelohi_reading, code, 12, 4);
FIELD(kambelohi_reading, n, 16, 32);

static_assert(sizeof(kambelohi_read_all_answer) == 12, "size of kambelohi_read_all_answer");
FIELD(kambelohi_read_all_answer, kind, 0, 2);
FIELD(kambelohi_read_all_answer, count, 2, 2);
FIELD(kambelohi_read_all_answer, number, 4, 2);
FIELD(kambelohi_read_all_answer, start, 6, 2);
FIELD(kambelohi_read_all_answer, length, 8, 2);
FIELD(kambelohi_read_all_answer, detail, 10, 2);

static_assert(sizeof(kambelohi_span) == 30, "size of kambelohi_span");
FIELD(kambelohi_span, kind, 0, 2);
FIELD(kambelohi_span, start, 2, 2);
FIELD(kambelohi_span, length, 4, 2);
FIELD(kambelohi_span, code, 6, 2);
FIELD(kambelohi_span, x, 8, 2);
FIELD(kambelohi_span, y, 10, 2);
FIELD(kambelohi_span, width, 12, 2);
FIELD(kambelohi_span, height, 14, 2);
FIELD(kambelohi_span, font, 16, 2);
FIELD(kambelohi_span, line, 18, 2);
FIELD(kambelohi_span, span, 20, 2);
FIELD(kambelohi_span, rect_x, 22, 2);
FIELD(kambelohi_span, rect_y, 24, 2);
FIELD(kambelohi_span, rect_width, 26, 2);
FIELD(kambelohi_span, rect_height, 28, 2);

static_assert(sizeof(kambelohi_list_answer) == 14, "size of kambelohi_list_answer");
FIELD(kambelohi_list_answer, kind, 0, 2);
FIELD(kambelohi_list_answer, duration, 2, 2);
FIELD(kambelohi_list_answer, count, 4, 2);
FIELD(kambelohi_list_answer, number, 6, 2);
FIELD(kambelohi_list_answer, start, 8, 2);
FIELD(kambelohi_list_answer, length, 10, 2);
FIELD(kambelohi_list_answer, detail, 12, 2);

static_assert(sizeof(kambelohi_place_answer) == 16, "size of kambelohi_place_answer");
FIELD(kambelohi_place_answer, kind, 0, 1);
FIELD(kambelohi_place_answer, number, 1, 1);
FIELD(kambelohi_place_answer, duration, 2, 2);
FIELD(kambelohi_place_answer, count, 4, 2);
FIELD(kambelohi_place_answer, start, 6, 2);
FIELD(kambelohi_place_answer, length, 8, 2);
FIELD(kambelohi_place_answer, detail, 10, 2);
FIELD(kambelohi_place_answer, looked, 12, 2);
FIELD(kambelohi_place_answer, spans, 14, 2);

static_assert(sizeof(kambelohi_shown) == 8, "size of kambelohi_shown");
FIELD(kambelohi_shown, kind, 0, 2);
FIELD(kambelohi_shown, duration, 2, 2);
FIELD(kambelohi_shown, first, 4, 2);
FIELD(kambelohi_shown, count, 6, 2);

static_assert(sizeof(kambelohi_list_all_answer) == 14, "size of kambelohi_list_all_answer");
FIELD(kambelohi_list_all_answer, kind, 0, 2);
FIELD(kambelohi_list_all_answer, answers, 2, 2);
FIELD(kambelohi_list_all_answer, records, 4, 2);
FIELD(kambelohi_list_all_answer, number, 6, 2);
FIELD(kambelohi_list_all_answer, start, 8, 2);
FIELD(kambelohi_list_all_answer, length, 10, 2);
FIELD(kambelohi_list_all_answer, detail, 12, 2);

static_assert(sizeof(kambelohi_sentence_answer) == 12, "size of kambelohi_sentence_answer");
FIELD(kambelohi_sentence_answer, kind, 0, 2);
FIELD(kambelohi_sentence_answer, count, 2, 2);
FIELD(kambelohi_sentence_answer, number, 4, 2);
FIELD(kambelohi_sentence_answer, start, 6, 2);
FIELD(kambelohi_sentence_answer, length, 8, 2);
FIELD(kambelohi_sentence_answer, detail, 10, 2);

/* a span and a reading are aligned as the header says */
typedef struct {
    char before;
    kambelohi_span span;
} aligned_span;
FIELD(aligned_span, span, 2, 30);

typedef struct {
    char before;
    kambelohi_reading reading;
} aligned_reading;
FIELD(aligned_reading, reading, 4, 48);

/* ---- lent memory */

enum { ROOM = 128 * 1024, MOST = KAMBELOHI_RECORDS + 1 };

static int failed = 0;
static int checks = 0;

/* The end of ROOM bytes, after which a page stands that nobody may touch. */
static uint8_t *fence(void) {
    size_t page = (size_t)sysconf(_SC_PAGESIZE);
    void *map = mmap(NULL, ROOM + page, PROT_READ | PROT_WRITE, MAP_PRIVATE | MAP_ANONYMOUS, -1, 0);
    if (map == MAP_FAILED || mprotect((uint8_t *)map + ROOM, page, PROT_NONE) != 0) {
        fprintf(stderr, "header: no memory\n");
        exit(2);
    }
    return (uint8_t *)map + ROOM;
}

static uint8_t *file_end, *msg_end, *shown_end, *spans_end, *readings_end, *buffer_end;

/* Bytes, lent so that they end where their memory ends. */
typedef struct {
    const uint8_t *at;
    size_t len;
} lent;

static lent lend(uint8_t *end, const void *bytes, size_t len) {
    lent l;
    l.at = end - len;
    l.len = len;
    memmove(end - len, bytes, len);
    return l;
}

static lent lend_text(const char *text) {
    return lend(msg_end, text, strlen(text));
}

/* A text again and again. */
static lent lend_times(size_t times, const char *text) {
    size_t len = strlen(text);
    uint8_t *at = msg_end - times * len;
    lent l;
    for (size_t i = 0; i < times; i++) {
        memcpy(at + i * len, text, len);
    }
    l.at = at;
    l.len = times * len;
    return l;
}

/* ---- answers as texts */

static char said[65536];
static size_t said_len = 0;

static void say(const char *format, ...) {
    va_list args;
    va_start(args, format);
    int n = vsnprintf(said + said_len, sizeof said - said_len, format, args);
    va_end(args);
    if (n < 0 || (size_t)n >= sizeof said - said_len) {
        fprintf(stderr, "header: too much to say\n");
        exit(2);
    }
    said_len += (size_t)n;
}

/* What was said must be this; then nothing is said. */
static void must_be(const char *name, const char *want) {
    checks++;
    said[said_len] = '\0';
    if (strcmp(said, want) != 0) {
        fprintf(stderr, "header: %s\n  wanted: %s\n  found:  %s\n", name, want, said);
        failed = 1;
    }
    said_len = 0;
}

static void must(const char *name, const char *what, int holds) {
    checks++;
    if (!holds) {
        fprintf(stderr, "header: %s: %s\n", name, what);
        failed = 1;
    }
}

/* ---- listing */

/* The placing call on the same patterned records: it must answer and write what the listing call did, and count the records. */
static kambelohi_place_answer call_place(const char *name, lent file, lent msg, size_t answer, size_t count, const uint8_t *pattern,
                                         kambelohi_list_answer a) {
    static uint8_t listed[MOST * sizeof(kambelohi_span)];
    size_t size = count * sizeof(kambelohi_span);
    uint8_t *at = spans_end - size;
    memcpy(listed, at, size);
    memcpy(at, pattern, size);
    kambelohi_place_answer p = kambelohi_place(file.at, file.len, msg.at, msg.len, answer, (kambelohi_span *)(void *)at, count);
    must(name, "the placing call answers what the listing call answers",
         p.kind == a.kind && p.duration == a.duration && p.count == a.count && p.number == a.number && p.start == a.start
             && p.length == a.length && p.detail == a.detail);
    must(name, "the placing call writes what the listing call writes", memcmp(at, listed, size) == 0);
    must(name, "the spans placed are the records", p.spans == (a.kind == KAMBELOHI_ON ? a.count : 0));
    must(name, "no character but of a page", a.kind == KAMBELOHI_ON || p.looked == 0);
    return p;
}

static kambelohi_place_answer placed;

/* One call on count patterned records, and whether those that it does not count are as they were; then the placing call. */
static kambelohi_list_answer call(const char *name, lent file, lent msg, size_t answer, size_t count) {
    static uint8_t pattern[MOST * sizeof(kambelohi_span)];
    static unsigned turn = 0;
    size_t size = count * sizeof(kambelohi_span);
    uint8_t *at = spans_end - size;
    for (size_t i = 0; i < size; i++) {
        pattern[i] = (uint8_t)(i * 31 + turn);
    }
    turn += 7;
    memcpy(at, pattern, size);
    kambelohi_list_answer a = kambelohi_list(file.at, file.len, msg.at, msg.len, answer, (kambelohi_span *)(void *)at, count);
    size_t written = a.kind == KAMBELOHI_ON ? a.count * sizeof(kambelohi_span) : 0;
    must(name, "as many records as are lent", written <= size);
    must(name, "records past the count are as they were", memcmp(at + written, pattern + written, size - written) == 0);
    placed = call_place(name, file, msg, answer, count, pattern, a);
    return a;
}

/* The counts of an answer. */
static void counts(const char *name, lent file, lent msg, size_t answer, int kind, int looked, int spans) {
    call(name, file, msg, answer, KAMBELOHI_RECORDS);
    must(name, "the kind", placed.kind == kind);
    must(name, "the characters looked up", placed.looked == looked);
    must(name, "the spans placed", placed.spans == spans);
}

static void say_answer(kambelohi_list_answer a) {
    say("%d %d %d %d %d %d %d;", a.kind, a.duration, a.count, a.number, a.start, a.length, a.detail);
}

/* A span's kind: text, hexadecimal, empty line. */
static char letter(int kind) {
    return kind == KAMBELOHI_SPAN_TEXT ? 't' : kind == KAMBELOHI_SPAN_HEXADECIMAL ? 'h' : kind == KAMBELOHI_SPAN_EMPTY_LINE ? 'e' : '?';
}

static void say_spans(size_t lent_count, size_t count) {
    const kambelohi_span *s = (const kambelohi_span *)(void *)(spans_end - lent_count * sizeof(kambelohi_span));
    for (size_t i = 0; i < count; i++) {
        say(" (%c %d %d %d, %d %d %d %d, %d %d %d, %d %d %d %d)", letter(s[i].kind), s[i].start, s[i].length, s[i].code, s[i].x, s[i].y,
            s[i].width, s[i].height, s[i].font, s[i].line, s[i].span, s[i].rect_x, s[i].rect_y, s[i].rect_width, s[i].rect_height);
    }
}

/* Whether all numbers of two answers are equal. */
static int same(kambelohi_list_answer a, kambelohi_list_answer b) {
    return a.kind == b.kind && a.duration == b.duration && a.count == b.count && a.number == b.number && a.start == b.start
           && a.length == b.length && a.detail == b.detail;
}

/* What the calls gave: answers, and records one after the other. */
static kambelohi_shown kept[KAMBELOHI_ALL_ANSWERS];
static kambelohi_span kept_spans[KAMBELOHI_ALL_RECORDS];
static size_t kept_count, kept_span_count;

static void keep(kambelohi_list_answer a, size_t lent_count) {
    kambelohi_shown s;
    s.kind = a.kind;
    s.duration = a.duration;
    s.first = (uint16_t)kept_span_count;
    s.count = a.count;
    kept[kept_count++] = s;
    memcpy(kept_spans + kept_span_count, spans_end - lent_count * sizeof(kambelohi_span), a.count * sizeof(kambelohi_span));
    kept_span_count += a.count;
}

/* The call for the whole listing on so many patterned answers and records, and whether those that it does not count are as they were. */
static kambelohi_list_all_answer call_all(const char *name, lent file, lent msg, size_t answers, size_t count) {
    static uint8_t pattern[(KAMBELOHI_ALL_RECORDS + 1) * sizeof(kambelohi_span)];
    size_t size = answers * sizeof(kambelohi_shown), span_size = count * sizeof(kambelohi_span);
    uint8_t *at = shown_end - size, *span_at = spans_end - span_size;
    for (size_t i = 0; i < sizeof pattern; i++) {
        pattern[i] = (uint8_t)(i * 29 + 3);
    }
    memcpy(at, pattern, size);
    memcpy(span_at, pattern, span_size);
    kambelohi_list_all_answer a = kambelohi_list_all(file.at, file.len, msg.at, msg.len, (kambelohi_shown *)(void *)at, answers,
                                                     (kambelohi_span *)(void *)span_at, count);
    size_t written = a.answers * sizeof(kambelohi_shown), span_written = a.records * sizeof(kambelohi_span);
    must(name, "as many answers and records as are lent", written <= size && span_written <= span_size);
    must(name, "answers past the count are as they were", memcmp(at + written, pattern + written, size - written) == 0);
    must(name, "all records past the count are as they were",
         memcmp(span_at + span_written, pattern + span_written, span_size - span_written) == 0);
    return a;
}

/* The whole listing in one call: what was kept of the calls, or their refusal. */
static void lists_all(const char *name, lent file, lent msg, kambelohi_list_answer last, size_t answers, size_t count) {
    kambelohi_list_all_answer a = call_all(name, file, msg, answers, count);
    if (last.kind == KAMBELOHI_LIST_REFUSED) {
        must(name, "the whole listing is refused as the calls are",
             a.kind == KAMBELOHI_ALL_REFUSED && a.answers == 0 && a.records == 0 && a.number == last.number && a.start == last.start
                 && a.length == last.length && a.detail == last.detail);
        return;
    }
    must(name, "the whole listing has the counts of the calls",
         a.kind == KAMBELOHI_ALL_LISTED && a.answers == kept_count && a.records == kept_span_count && a.number == 0 && a.start == 0
             && a.length == 0 && a.detail == 0);
    must(name, "the whole listing has the answers of the calls",
         memcmp(shown_end - answers * sizeof(kambelohi_shown), kept, kept_count * sizeof(kambelohi_shown)) == 0);
    must(name, "the whole listing has the records of the calls",
         memcmp(spans_end - count * sizeof(kambelohi_span), kept_spans, kept_span_count * sizeof(kambelohi_span)) == 0);
}

/* Slices that are too short for a whole listing: 4, after 1 to 3. */
static void short_all(const char *name, lent file, lent msg, size_t answers, size_t count, int number) {
    kambelohi_list_all_answer a = call_all(name, file, msg, answers, count);
    say("%d %d %d %d %d %d %d;", a.kind, a.answers, a.records, a.number, a.start, a.length, a.detail);
    char want[80];
    snprintf(want, sizeof want, "2 0 0 %d 0 0 0;", number);
    must_be(name, want);
}

/* The whole listing of a message, that the answers after it are its last, and that it is the same in one call. */
static void lists(const char *name, lent file, lent msg, const char *want) {
    size_t n = 0;
    kambelohi_list_answer a;
    kept_count = kept_span_count = 0;
    do {
        size_t count = KAMBELOHI_RECORDS + n % 2;
        a = call(name, file, msg, n, count);
        say_answer(a);
        say_spans(count, a.kind == KAMBELOHI_ON ? a.count : 0);
        if (a.kind == KAMBELOHI_ON || a.kind == KAMBELOHI_OFF) {
            keep(a, count);
        }
        n++;
    } while (a.kind == KAMBELOHI_ON || a.kind == KAMBELOHI_OFF);
    must_be(name, want);
    lists_all(name, file, msg, a, KAMBELOHI_ALL_ANSWERS, KAMBELOHI_ALL_RECORDS + 1);
    lists_all(name, file, msg, a, KAMBELOHI_ALL_ANSWERS + 1, KAMBELOHI_ALL_RECORDS);
    must(name, "the last answer is the end or a refusal", a.kind == KAMBELOHI_LAST || a.kind == KAMBELOHI_LIST_REFUSED);
    must(name, "the answer after the last is the last", same(a, call(name, file, msg, n, KAMBELOHI_RECORDS)));
    must(name, "the last number has the last answer", same(a, call(name, file, msg, SIZE_MAX, MOST)));
}

/* A listing that is refused at once. */
static void refuses(const char *name, lent file, lent msg, int number, int start, int length, int detail) {
    char want[80];
    snprintf(want, sizeof want, "4 0 0 %d %d %d %d;", number, start, length, detail);
    lists(name, file, msg, want);
}

/* Document 01, "Worked boards". */
static void worked_boards(lent p) {
    lists("nothing", p, lend_text(""), "1 30 0 0 0 0 0;3 0 1 0 0 0 0;");
    lists("AB", p, lend_text("AB"), "1 30 1 0 0 0 0; (t 0 2 0, 0 0 13 7, 1 0 0, 1 1 50 24)3 0 1 0 0 0 0;");
    lists("right", p, lend_text("[jl4]AB"), "1 30 1 0 0 0 0; (t 5 2 0, 37 0 13 7, 1 0 0, 1 1 50 24)3 0 1 0 0 0 0;");
    lists("centre", p, lend_text("[jl3]AB"), "1 30 1 0 0 0 0; (t 5 2 0, 18 0 13 7, 1 0 0, 1 1 50 24)3 0 1 0 0 0 0;");
    lists("two lines", p, lend_text("A[nl]B"),
          "1 30 2 0 0 0 0; (t 0 1 0, 0 0 5 7, 1 0 0, 1 1 50 24) (t 5 1 0, 0 10 6 7, 1 1 0, 1 1 50 24)3 0 1 0 0 0 0;");
    lists("spacing", p, lend_text("A[sc4]B"),
          "1 30 2 0 0 0 0; (t 0 1 0, 0 0 5 7, 1 0 0, 1 1 50 24) (t 6 1 0, 9 0 6 7, 1 0 1, 1 1 50 24)3 0 1 0 0 0 0;");
    lists("bracket", p, lend_text("[[A"),
          "1 30 2 0 0 0 0; (t 0 1 0, 0 0 3 7, 1 0 0, 1 1 50 24) (t 2 1 0, 5 0 5 7, 1 0 1, 1 1 50 24)3 0 1 0 0 0 0;");
    lists("13 wide", p, lend_text("[tr1,1,13,7]AB"), "1 30 1 0 0 0 0; (t 12 2 0, 0 0 13 7, 1 0 0, 1 1 13 7)3 0 1 0 0 0 0;");
    lists("hexadecimal", p, lend_text("[hc+41][hc0]"),
          "1 30 2 0 0 0 0; (h 0 7 65, 0 0 5 7, 1 0 0, 1 1 50 24) (h 7 5 0, 7 0 0 7, 1 0 1, 1 1 50 24)3 0 1 0 0 0 0;");
    lists("an empty line", p, lend_text("[tr3,2,0,0][nl]A"),
          "1 30 2 0 0 0 0; (e 11 0 0, 2 1 0 7, 1 0 0, 3 2 48 23) (t 15 1 0, 2 11 5 7, 1 1 0, 3 2 48 23)3 0 1 0 0 0 0;");
    lists("49 rectangles", p, lend_times(49, "[tr1,1,0,0]"), "1 30 0 0 0 0 0;3 0 1 0 0 0 0;");
    lists("the listing in full", p, lend_text("[pt10o5]A[np]B"),
          "1 10 1 0 0 0 0; (t 8 1 0, 0 0 5 7, 1 0 0, 1 1 50 24)2 5 0 0 0 0 0;"
          "1 10 1 0 0 0 0; (t 13 1 0, 0 0 6 7, 1 0 0, 1 1 50 24)2 5 0 0 0 0 0;3 0 4 0 0 0 0;");
    lent most = lend_times(511, "[np]");
    char want[32 * 1026 + 32] = "";
    for (size_t i = 0; i < 512; i++) {
        strcat(want, "1 30 0 0 0 0 0;");
    }
    strcat(want, "3 0 512 0 0 0 0;");
    lists("512 pages", p, most, want);
    lists("a page before a refusal", p, lend_text("A[np][fo9]B"),
          "1 30 1 0 0 0 0; (t 0 1 0, 0 0 5 7, 1 0 0, 1 1 50 24)4 0 0 10 10 1 9;");
}

/* Document 02, A6: numbers by group, on board P with a record of kind 6 behind that of kind 1. */
static void group_numbers(lent p) {
    static uint8_t whole[ROOM];
    static const uint8_t kind_6[] = {0, 0, 6, 0};
    enum { KIND_1 = 19 };
    memcpy(whole, p.at, KIND_1);
    memcpy(whole + KIND_1, kind_6, sizeof kind_6);
    memcpy(whole + KIND_1 + sizeof kind_6, p.at + KIND_1, p.len - KIND_1);
    p = lend(file_end, whole, p.len + sizeof kind_6);
    lists("a justification again", p, lend_text("A[jl2]B"),
          "1 30 2 0 0 0 0; (t 0 1 0, 0 0 5 7, 1 0 0, 1 1 50 24) (t 6 1 0, 7 0 6 7, 1 0 1, 1 1 50 24)3 0 1 0 0 0 0;");
    lists("a group that is come back to", p, lend_text("A[nl]B[jp3][jp2]B"),
          "1 30 3 0 0 0 0; (t 0 1 0, 0 0 5 7, 1 0 0, 1 1 50 24) (t 5 1 0, 0 10 6 7, 1 1 0, 1 1 50 24)"
          " (t 16 1 0, 7 0 6 7, 1 0 1, 1 1 50 24)3 0 1 0 0 0 0;");
    refuses("256 spans in a group", p, lend_times(256, "[jl2][["), KAMBELOHI_TOO_MANY, 1790, 2, 0);
    whole[KIND_1 + 2] = 7;
    refuses("no such kind", lend(file_end, whole, p.len), lend_text("A"), KAMBELOHI_SIGN_FILE, KIND_1, 0, 0);
}

/* Document 02, A9: both counts, which are 0 for off, the end and a refusal. */
static void page_counts(lent p) {
    counts("nothing to count", p, lend_text(""), 0, KAMBELOHI_ON, 0, 0);
    counts("two characters", p, lend_text("AB"), 0, KAMBELOHI_ON, 2, 1);
    counts("texts, a bracket, an [hc] and an empty line", p, lend_text("[nl]AB[[[hc41][tr1,1,0,0]A"), 0, KAMBELOHI_ON, 5, 5);
    counts("a first page", p, lend_text("[pt10o5]AB[np]B"), 0, KAMBELOHI_ON, 2, 1);
    counts("an off answer", p, lend_text("[pt10o5]AB[np]B"), 1, KAMBELOHI_OFF, 0, 0);
    counts("a later page", p, lend_text("[pt10o5]AB[np]B"), 2, KAMBELOHI_ON, 1, 1);
    counts("the end", p, lend_text("[pt10o5]AB[np]B"), 4, KAMBELOHI_LAST, 0, 0);
    counts("a page that is refused", p, lend_text("AB[np][tr1,1,12,7]AB"), 1, KAMBELOHI_LIST_REFUSED, 0, 0);
    counts("a missing character", p, lend_text("AC"), 0, KAMBELOHI_LIST_REFUSED, 0, 0);
    counts("a pass that is refused after one that is placed", p, lend_text("AB[tr1,1,12,7]AB"), 0, KAMBELOHI_LIST_REFUSED, 0, 0);
}

/* Document 01: "Board P with height 7, character height 7, middle, font height 5", with the character A only. */
static const uint8_t board_m[] = {15, 0, 1, 0, 50, 0, 7, 0, 0, 7, 1, 2, 3, 30, 0, 232, 60, 0, 8, 6, 0, 2, 0, 1, 5, 2, 3, 0, 0,
                                  7,  0, 3, 0, 65, 0, 5, 0, 0, 0, 0};

/* Every refusal of the listing call by its name. */
static void list_refusals(lent p) {
    static char whole[ROOM];
    memcpy(whole, p.at, p.len);
    refuses("a file too long", lend(file_end, whole, KAMBELOHI_SIGN_FILE_BYTES + 1), lend_text("A"), KAMBELOHI_SIGN_FILE, 0, 0, 0);
    refuses("the longest file", lend(file_end, whole, KAMBELOHI_SIGN_FILE_BYTES), lend_text("A"), KAMBELOHI_SIGN_FILE, 64, 0, 0);
    refuses("no sign file", lend(file_end, whole, 0), lend_text("A"), KAMBELOHI_SIGN_FILE, 0, 0, 0);
    refuses("a record cut short", lend(file_end, whole, p.len - 1), lend_times(2049, "A"), KAMBELOHI_SIGN_FILE, 54, 0, 0);
    refuses("low", lend(file_end, board_m, sizeof board_m), lend_text("A"), KAMBELOHI_TOO_LOW, 0, 1, 0);
    p = lend(file_end, whole, p.len);
    refuses("2,049 bytes", p, lend_times(KAMBELOHI_MESSAGE_BYTES + 1, "\xff"), KAMBELOHI_TOO_LONG, 0, 0, 0);
    refuses("2,048 bytes", p, lend_times(KAMBELOHI_MESSAGE_BYTES, "A"), KAMBELOHI_TOO_BIG, 0, 2048, 0);
    refuses("ill-formed", p, lend_text("[xx]\xc3"), KAMBELOHI_ILL_FORMED, 0, 0, 0);
    refuses("no tag", p, lend_text("A[xx]"), KAMBELOHI_BAD_TAG, 1, 4, 0);
    refuses("a stray bracket", p, lend_text("]"), KAMBELOHI_BAD_TAG, 0, 1, 0);
    refuses("not supported", p, lend_text("A[cb1]"), KAMBELOHI_BAD_TAG, 1, 5, 0);
    refuses("field 0", p, lend_text("[f0]"), KAMBELOHI_BAD_TAG, 0, 4, 0);
    refuses("two digits", p, lend_text("[nl10]"), KAMBELOHI_BAD_PARAMETER, 0, 6, 0);
    refuses("font 0", p, lend_text("[fo0]"), KAMBELOHI_BAD_PARAMETER, 0, 5, 0);
    refuses("no code", p, lend_text("[hc]"), KAMBELOHI_BAD_PARAMETER, 0, 4, 0);
    refuses("outside the sign", p, lend_text("A[tr1,1,51,1]"), KAMBELOHI_BAD_PARAMETER, 1, 12, 0);
    refuses("a code point", p, lend_text("A[nl]\xe2\x82\xac"), KAMBELOHI_BAD_CODE, 5, 3, 0);
    refuses("256 line ends", p, lend_times(256, "[nl]"), KAMBELOHI_TOO_MANY, 1020, 4, 0);
    refuses("back", p, lend_text("[jp3]A[jp2]B"), KAMBELOHI_GOES_BACK, 11, 1, 0);
    refuses("font 9", p, lend_text("[fo9]A"), KAMBELOHI_NO_FONT, 5, 1, 9);
    refuses("version", p, lend_text("[fo1,0001]A"), KAMBELOHI_FONT_VERSION, 10, 1, 0);
    refuses("no C", p, lend_text("AC"), KAMBELOHI_NO_CHARACTER, 0, 2, 67);
    refuses("12 wide", p, lend_text("[tr1,1,12,7]AB"), KAMBELOHI_TOO_BIG, 12, 2, 0);
    refuses("50 rectangles", p, lend_times(50, "[tr1,1,0,0]"), KAMBELOHI_TOO_MANY_PASSES, 0, 0, 0);
}

static void short_call(const char *name, lent file, lent msg, size_t answer, size_t count, int number) {
    char want[80];
    say_answer(call(name, file, msg, answer, count));
    snprintf(want, sizeof want, "4 0 0 %d 0 0 0;", number);
    must_be(name, want);
}

/* Slices of fewer than 1,400 records: 4, whatever the answer would be, after 1 to 3. */
static void short_slices(lent p) {
    const size_t counts[] = {KAMBELOHI_RECORDS - 1, 1, 0};
    lent none = p;
    none.len = 0;
    for (size_t i = 0; i < sizeof counts / sizeof counts[0]; i++) {
        short_call("a short slice", p, lend_text("A[np]A"), 0, counts[i], KAMBELOHI_BAD_CALL);
        short_call("a short slice, answer 1", p, lend_text("A[np]A"), 1, counts[i], KAMBELOHI_BAD_CALL);
        short_call("a short slice, the last number", p, lend_text("A[np]A"), SIZE_MAX, counts[i], KAMBELOHI_BAD_CALL);
        short_call("a short slice, a message that is refused", p, lend_text("[xx]"), 0, counts[i], KAMBELOHI_BAD_CALL);
        short_call("a short slice and no sign file", none, lend_text("A"), 0, counts[i], KAMBELOHI_SIGN_FILE);
        short_call("a short slice and 2,049 bytes", p, lend_times(2049, "A"), 0, counts[i], KAMBELOHI_TOO_LONG);
        short_call("a short slice and ill-formed", p, lend_text("\xff"), 0, counts[i], KAMBELOHI_ILL_FORMED);
    }
    const size_t rooms[][2] = {{KAMBELOHI_ALL_ANSWERS - 1, KAMBELOHI_ALL_RECORDS}, {KAMBELOHI_ALL_ANSWERS, KAMBELOHI_ALL_RECORDS - 1}, {0, 0}};
    for (size_t i = 0; i < sizeof rooms / sizeof rooms[0]; i++) {
        short_all("short slices", p, lend_text("A[np]A"), rooms[i][0], rooms[i][1], KAMBELOHI_BAD_CALL);
        short_all("short slices, a message that is refused", p, lend_text("[xx]"), rooms[i][0], rooms[i][1], KAMBELOHI_BAD_CALL);
        short_all("short slices and no sign file", none, lend_text("A"), rooms[i][0], rooms[i][1], KAMBELOHI_SIGN_FILE);
        short_all("short slices and 2,049 bytes", p, lend_times(2049, "A"), rooms[i][0], rooms[i][1], KAMBELOHI_TOO_LONG);
        short_all("short slices and ill-formed", p, lend_text("\xff"), rooms[i][0], rooms[i][1], KAMBELOHI_ILL_FORMED);
    }
}

/* ---- reading */

static void say_reading(kambelohi_read_answer a) {
    say("%u %u %u %u %u %u:", a.kind, a.number, a.start, a.length, a.detail, a.code);
    for (size_t i = 0; i < 8; i++) {
        say(" %u", a.n[i]);
    }
    say(";");
}

static void reads(const char *name, lent msg, size_t offset, const char *want) {
    say_reading(kambelohi_read(msg.at, msg.len, offset, false));
    must_be(name, want);
}

/* A slice that is a whole message: its value by its name. */
static void value(const char *text, int code, const char *n) {
    char want[120];
    snprintf(want, sizeof want, "%d 0 0 %zu 0 %d: %s;", KAMBELOHI_SLICE, strlen(text), code, n);
    reads(text, lend_text(text), 0, want);
}

static void values(void) {
    value("[cb9]", KAMBELOHI_COLOR_BACKGROUND, "1 0 9 0 0 0 0 0");
    value("[cb]", KAMBELOHI_COLOR_BACKGROUND, "0 0 0 0 0 0 0 0");
    value("[cf1,2,3]", KAMBELOHI_COLOR_FOREGROUND, "1 1 1 2 3 0 0 0");
    value("[cr1,2,3,4,5,6,7]", KAMBELOHI_COLOR_RECTANGLE, "1 2 3 4 1 5 6 7");
    value("[f13,8]", KAMBELOHI_FIELD, "13 1 8 0 0 0 0 0");
    value("[f0]", KAMBELOHI_FIELD, "0 0 0 0 0 0 0 0");
    value("[flt1o2]", KAMBELOHI_FLASH, "0 1 1 1 2 0 0 0");
    value("[flo3t4]", KAMBELOHI_FLASH, "1 1 3 1 4 0 0 0");
    value("[/fl]", KAMBELOHI_FLASH_END, "0 0 0 0 0 0 0 0");
    value("[fo7,00ff]", KAMBELOHI_FONT, "1 7 1 255 0 0 0 0");
    value("[fo]", KAMBELOHI_FONT, "0 0 0 0 0 0 0 0");
    value("[g5,6,7,0010]", KAMBELOHI_GRAPHIC, "5 1 6 7 1 16 0 0");
    value("[g5]", KAMBELOHI_GRAPHIC, "5 0 0 0 0 0 0 0");
    value("[hc41]", KAMBELOHI_HEXADECIMAL_CHARACTER, "65 0 0 0 0 0 0 0");
    value("[jl5]", KAMBELOHI_JUSTIFICATION_LINE, "1 5 0 0 0 0 0 0");
    value("[jp]", KAMBELOHI_JUSTIFICATION_PAGE, "0 0 0 0 0 0 0 0");
    value("[ms1,xyz]", KAMBELOHI_MANUFACTURER_SPECIFIC, "1 1 5 3 0 0 0 0");
    value("[/ms4294967295]", KAMBELOHI_MANUFACTURER_SPECIFIC_END, "4294967295 0 0 0 0 0 0 0");
    value("[mvl9r100,2,3,hello]", KAMBELOHI_MOVING_TEXT, "1 9 1 100 2 3 14 5");
    value("[nl4]", KAMBELOHI_NEW_LINE, "1 4 0 0 0 0 0 0");
    value("[np]", KAMBELOHI_NEW_PAGE, "0 0 0 0 0 0 0 0");
    value("[pb1]", KAMBELOHI_PAGE_BACKGROUND, "1 0 1 0 0 0 0 0");
    value("[pt10o5]", KAMBELOHI_PAGE_TIME, "1 10 1 5 0 0 0 0");
    value("[sc99]", KAMBELOHI_SPACING_CHARACTER, "99 0 0 0 0 0 0 0");
    value("[/sc]", KAMBELOHI_SPACING_CHARACTER_END, "0 0 0 0 0 0 0 0");
    value("a\xc3\xa9", KAMBELOHI_TEXT, "0 3 0 0 0 0 0 0");
    value("]]", KAMBELOHI_TEXT, "0 1 0 0 0 0 0 0");
    value("[tr1,2,0,4]", KAMBELOHI_TEXT_RECTANGLE, "1 2 0 4 0 0 0 0");
}

/* Times that only long times allow, with and without them. */
static void long_times(void) {
    lent msg = lend_text("[pt600o65535]");
    say_reading(kambelohi_read(msg.at, msg.len, 0, true));
    must_be("long times", "0 0 0 13 0 18: 1 600 1 65535 0 0 0 0;");
    say_reading(kambelohi_read(msg.at, msg.len, 0, false));
    must_be("without long times", "2 6 0 13 0 0: 0 0 0 0 0 0 0 0;");
    msg = lend_text("[pto65536]");
    say_reading(kambelohi_read(msg.at, msg.len, 0, true));
    must_be("over long times", "2 6 0 10 0 0: 0 0 0 0 0 0 0 0;");
}

/* All slices of a message, each after the one before, a refused one too; then the end. */
static void slices(void) {
    lent msg = lend_text("[pt10o5]A\xc3\xa9[[[xx][np]B][nl10]\xe2\x82\xac");
    kambelohi_read_answer a;
    size_t offset = 0;
    do {
        a = kambelohi_read(msg.at, msg.len, offset, false);
        say_reading(a);
        offset = a.start + a.length;
    } while (a.kind == KAMBELOHI_SLICE || (a.kind == KAMBELOHI_REFUSED && a.number >= KAMBELOHI_BAD_TAG));
    must_be("all slices",
            "0 0 0 8 0 18: 1 10 1 5 0 0 0 0;0 0 8 3 0 21: 8 3 0 0 0 0 0 0;0 0 11 2 0 21: 11 1 0 0 0 0 0 0;2 5 13 4 0 0: 0 0 0 0 0 0 0 0;"
            "0 0 17 4 0 16: 0 0 0 0 0 0 0 0;0 0 21 1 0 21: 21 1 0 0 0 0 0 0;2 5 22 1 0 0: 0 0 0 0 0 0 0 0;2 6 23 6 0 0: 0 0 0 0 0 0 0 0;"
            "2 7 29 3 0 0: 0 0 0 0 0 0 0 0;1 0 0 0 0 0: 0 0 0 0 0 0 0 0;");
    reads("inside a slice", msg, 18, "0 0 18 2 0 21: 18 2 0 0 0 0 0 0;");
    reads("inside a character", msg, 10, "2 4 0 0 0 0: 0 0 0 0 0 0 0 0;");
    reads("past the message", msg, msg.len + 1, "2 4 0 0 0 0: 0 0 0 0 0 0 0 0;");
    reads("the last number", msg, SIZE_MAX, "2 4 0 0 0 0: 0 0 0 0 0 0 0 0;");
}

static void refused_reading(const char *name, lent msg, size_t offset, int number, int start, int length) {
    char want[120];
    snprintf(want, sizeof want, "%d %d %d %d 0 0: 0 0 0 0 0 0 0 0;", KAMBELOHI_REFUSED, number, start, length);
    reads(name, msg, offset, want);
}

/* Every refusal of the reading call by its name, and messages without bytes and with the most. */
static void read_refusals(void) {
    char end[120];
    snprintf(end, sizeof end, "%d 0 0 0 0 0: 0 0 0 0 0 0 0 0;", KAMBELOHI_END);
    refused_reading("2,049 bytes", lend_times(2049, "\xff"), SIZE_MAX, KAMBELOHI_TOO_LONG, 0, 0);
    refused_reading("ill-formed, past the message", lend_text("A\xc3"), 5, KAMBELOHI_ILL_FORMED, 0, 0);
    refused_reading("past", lend_text("A"), 2, KAMBELOHI_BAD_CALL, 0, 0);
    refused_reading("inside", lend_text("\xc3\xa9"), 1, KAMBELOHI_BAD_CALL, 0, 0);
    refused_reading("no tag", lend_text("A[fe]"), 1, KAMBELOHI_BAD_TAG, 1, 4);
    refused_reading("a stray bracket", lend_text("A["), 1, KAMBELOHI_BAD_TAG, 1, 1);
    refused_reading("a parameter", lend_text("A[cf999]"), 1, KAMBELOHI_BAD_PARAMETER, 1, 7);
    refused_reading("a code point", lend_text("AB\xc4\x80"), 1, KAMBELOHI_BAD_CODE, 1, 3);
    reads("nothing", lend_text(""), 0, end);
    reads("the end of 2,048 bytes", lend_times(2048, "A"), 2048, end);
    reads("2,048 bytes", lend_times(2048, "A"), 0, "0 0 0 2048 0 21: 0 2048 0 0 0 0 0 0;");
}

/* ---- reading all slices */

/* One call on count patterned readings, and whether those that it does not count are as they were. */
static kambelohi_read_all_answer call_read_all(const char *name, lent msg, bool is_long, size_t count) {
    static uint8_t pattern[(KAMBELOHI_READINGS + 1) * sizeof(kambelohi_reading)];
    static unsigned turn = 0;
    size_t size = count * sizeof(kambelohi_reading);
    uint8_t *at = readings_end - size;
    for (size_t i = 0; i < size; i++) {
        pattern[i] = (uint8_t)(i * 37 + turn);
    }
    turn += 13;
    memcpy(at, pattern, size);
    kambelohi_read_all_answer a = kambelohi_read_all(msg.at, msg.len, is_long, (kambelohi_reading *)(void *)at, count);
    size_t written = a.kind == KAMBELOHI_ALL_READ ? a.count * sizeof(kambelohi_reading) : 0;
    must(name, "as many readings as are lent", written <= size);
    must(name, "readings past the count are as they were", memcmp(at + written, pattern + written, size - written) == 0);
    return a;
}

static void say_all(kambelohi_read_all_answer a) {
    say("%d %d %d %d %d %d;", a.kind, a.count, a.number, a.start, a.length, a.detail);
}

/* Each reading is what the reading call says at its start, from 0 on to the message's end. */
static void reads_all(const char *name, lent msg, size_t slices) {
    for (size_t turn = 0; turn < 4; turn++) {
        size_t count = KAMBELOHI_READINGS + turn % 2;
        bool is_long = turn >= 2;
        kambelohi_read_all_answer a = call_read_all(name, msg, is_long, count);
        const kambelohi_reading *r = (const kambelohi_reading *)(void *)(readings_end - count * sizeof(kambelohi_reading));
        char want[80];
        size_t offset = 0;
        int alike = 1;
        say_all(a);
        snprintf(want, sizeof want, "%d %zu 0 0 0 0;", KAMBELOHI_ALL_READ, slices);
        must_be(name, want);
        for (size_t i = 0; i < a.count; i++) {
            kambelohi_read_answer one = kambelohi_read(msg.at, msg.len, offset, is_long);
            alike &= r[i].start == offset && r[i].start == one.start && r[i].length == one.length && r[i].number == one.number
                     && r[i].code == one.code && memcmp(r[i].n, one.n, sizeof one.n) == 0;
            offset = one.start + one.length;
        }
        must(name, "each reading is the reading call's", alike);
        must(name, "they end where the message ends", offset == msg.len);
    }
}

static void refuses_all(const char *name, lent msg, size_t count, int number) {
    char want[80];
    snprintf(want, sizeof want, "%d 0 %d 0 0 0;", KAMBELOHI_READ_ALL_REFUSED, number);
    say_all(call_read_all(name, msg, false, count));
    must_be(name, want);
    say_all(call_read_all(name, msg, true, count));
    must_be(name, want);
}

static void all_slices(void) {
    reads_all("all of a message", lend_text("[pt256o5]A\xc3\xa9[[[xx][np]B][nl10]\xe2\x82\xac"), 9);
    reads_all("all of nothing", lend_text(""), 0);
    reads_all("all of 2,048 bytes", lend_times(2048, "A"), 1);
    reads_all("2,048 slices", lend_times(1024, "A]"), 2048);
    reads_all("brackets the wrong way", lend_times(1024, "]["), 1025);
    reads_all("all of 1,024 brackets", lend_times(1024, "[["), 1024);
    reads_all("values that signs do not support", lend_text("[cb9][cr1,2,3,4,5,6,7][f13,8][g5,6,7,0010][ms1,xyz][/ms4294967295][mvl9r100,2,3,hello]"), 7);
    refuses_all("all of 2,049 bytes", lend_times(2049, "\xff"), 0, KAMBELOHI_TOO_LONG);
    refuses_all("all of an ill-formed message", lend_text("A[np]\xc3"), 0, KAMBELOHI_ILL_FORMED);
    refuses_all("an ill-formed message, readings enough", lend_text("A[np]\xc3"), KAMBELOHI_READINGS, KAMBELOHI_ILL_FORMED);
    refuses_all("2,047 readings", lend_text("A"), KAMBELOHI_READINGS - 1, KAMBELOHI_BAD_CALL);
    refuses_all("no reading", lend_text(""), 0, KAMBELOHI_BAD_CALL);
}

/* ---- the refusal as a sentence */

/* One call on a patterned buffer of size bytes: the answer and what was written; all other bytes are as they were. */
static void tells(const char *name, uint8_t number, uint16_t start, uint16_t length, uint16_t detail, size_t size, const char *want) {
    static uint8_t pattern[4096];
    static unsigned turn = 0;
    uint8_t *at = buffer_end - size;
    for (size_t i = 0; i < size; i++) {
        pattern[i] = (uint8_t)(i * 29 + turn);
    }
    turn += 11;
    memcpy(at, pattern, size);
    kambelohi_sentence_answer a = kambelohi_sentence(number, start, length, detail, at, size);
    size_t written = a.kind == KAMBELOHI_WRITTEN ? a.count : 0;
    must(name, "no more bytes than are lent", written <= size);
    must(name, "bytes past the sentence are as they were", memcmp(at + written, pattern + written, size - written) == 0);
    say("%d %d %d %d %d %d;%.*s", a.kind, a.count, a.number, a.start, a.length, a.detail, (int)written, (const char *)at);
    must_be(name, want);
}

/* A sentence in the smallest buffer, in one a byte longer and in a large one; smaller ones are refused, whatever the sentence. */
static void told(uint8_t number, uint16_t start, uint16_t length, uint16_t detail, const char *sentence) {
    const size_t enough[] = {KAMBELOHI_SENTENCE_BYTES, KAMBELOHI_SENTENCE_BYTES + 1, 4096};
    const size_t few[] = {KAMBELOHI_SENTENCE_BYTES - 1, 1, 0};
    char want[200];
    snprintf(want, sizeof want, "%d %zu 0 0 0 0;%s", KAMBELOHI_WRITTEN, strlen(sentence), sentence);
    for (size_t i = 0; i < sizeof enough / sizeof enough[0]; i++) {
        tells(sentence, number, start, length, detail, enough[i], want);
    }
    snprintf(want, sizeof want, "%d 0 %d 0 0 0;", KAMBELOHI_SENTENCE_REFUSED, KAMBELOHI_SHORT_BUFFER);
    for (size_t i = 0; i < sizeof few / sizeof few[0]; i++) {
        tells("a short buffer", number, start, length, detail, few[i], want);
    }
}

static void sentences(void) {
    told(KAMBELOHI_TOO_BIG, 8, 2, 0, "Refusal 13 at byte 8, length 2, detail 0: text does not fit its rectangle.");
    told(KAMBELOHI_SHORT_BUFFER, 0, 0, 0, "Refusal 16 at byte 0, length 0, detail 0: room for the sentence is too small.");
    told(KAMBELOHI_TOO_LONG, 65535, 65535, 65535,
         "Refusal 2 at byte 65535, length 65535, detail 65535: message is over 2,048 bytes, shorten it.");
    told(0, 0, 0, 0, "Refusal 0 at byte 0, length 0, detail 0: unknown.");
    told(255, 65535, 65535, 65535, "Refusal 255 at byte 65535, length 65535, detail 65535: unknown.");
    told(200, 9, 99, 999, "Refusal 200 at byte 9, length 99, detail 999: unknown.");
    told(100, 10, 100, 10000, "Refusal 100 at byte 10, length 100, detail 10000: unknown.");
}

int main(int argc, char **argv) {
    static uint8_t sign[ROOM];
    FILE *in = argc == 2 ? fopen(argv[1], "rb") : NULL;
    if (in == NULL) {
        fprintf(stderr, "header: give boards/p/sign.bin\n");
        return 2;
    }
    size_t len = fread(sign, 1, sizeof sign, in);
    fclose(in);
    file_end = fence();
    msg_end = fence();
    shown_end = fence();
    spans_end = fence();
    readings_end = fence();
    buffer_end = fence();
    worked_boards(lend(file_end, sign, len));
    group_numbers(lend(file_end, sign, len));
    page_counts(lend(file_end, sign, len));
    list_refusals(lend(file_end, sign, len));
    short_slices(lend(file_end, sign, len));
    values();
    long_times();
    slices();
    read_refusals();
    all_slices();
    sentences();
    printf("header: %d checks%s\n", checks, failed ? ", and some failed" : "");
    return failed;
}
