/*
 * How much stack the calls take, on the cases of streams (tests/FORMAT.md) on standard input.
 *
 * The calls of a case run on a thread whose stack lies above a page that nobody may touch. Before them the thread gives stack away until
 * as much is left as include/kambelohi.h says that the call takes, and at most LITTLE more. A call that takes more touches the page: the
 * program says on which line, and ends with 1. The stack is painted before; how far down the paint is gone is what the calls took. The
 * most of all cases must be above three quarters of what the header says, so that the header says neither too little nor far too much.
 *
 * An L line, for the listing and the placing call: every answer up to the end or a refusal, the two after it, the last number there is, and
 * a slice of too few records; and the whole listing in one call, also on slices of too few answers and records. A V line, and the message
 * of an L line: the reading call at every offset, past the end, and at the last number there is, and all slices in one call, on enough
 * readings and too few.
 * Before the first line, as line 0: the sentences of all numbers with places of one to five digits, and a buffer of too few bytes. Every
 * refusal of each call must have come.
 */
#define _GNU_SOURCE
#include "kambelohi.h"

#include <alloca.h>
#include <pthread.h>
#include <signal.h>
#include <stdio.h>
#include <stdlib.h>
#include <string.h>
#include <sys/mman.h>
#include <unistd.h>

enum { LITTLE = 64, PAGE = 4096, PAINT = 0xa5 };

/* A thread's stack: what the call takes, and more than the thread itself takes. */
enum { STACK_SIZE = (KAMBELOHI_LIST_ALL_STACK / PAGE + 32) * PAGE };

/* Of a call: its name, what the header says that it takes, the most that it took, how often it was called and refused. */
typedef struct {
    const char *name;
    size_t said;
    size_t most;
    size_t calls;
    size_t refusals[32];
} measure;

static measure reading = {"kambelohi_read", KAMBELOHI_READ_STACK, 0, 0, {0}};
static measure slices = {"kambelohi_read_all", KAMBELOHI_READ_ALL_STACK, 0, 0, {0}};
static measure listing = {"kambelohi_list", KAMBELOHI_LIST_STACK, 0, 0, {0}};
static measure placing = {"kambelohi_place", KAMBELOHI_PLACE_STACK, 0, 0, {0}};
static measure whole = {"kambelohi_list_all", KAMBELOHI_LIST_ALL_STACK, 0, 0, {0}};
static measure telling = {"kambelohi_sentence", KAMBELOHI_SENTENCE_STACK, 0, 0, {0}};

/* The case at hand. */
static size_t line_number;
static uint8_t *file, *msg;
static size_t file_len, msg_len;
static kambelohi_shown shown[KAMBELOHI_ALL_ANSWERS];
static kambelohi_span spans[KAMBELOHI_ALL_RECORDS];
static kambelohi_reading readings[KAMBELOHI_READINGS];

/* The lowest byte of the stack that may be touched, the one below which the calls of a case are made, and what an overrun says. */
static unsigned char *floor_at;
static unsigned char *volatile below;
static char overrun_text[160];

static void fail(int status, const char *what) {
    fprintf(stderr, "stack: line %zu: %s\n", line_number, what);
    exit(status);
}

static void overrun(int sig) {
    (void)sig;
    _exit(write(STDERR_FILENO, overrun_text, strlen(overrun_text)) < 0 ? 3 : 1);
}

/* Gives stack away until SAID bytes are left, and at most LITTLE more. What is called after it must be one of the calls. */
#define GIVE_AWAY(SAID)                                                                \
    do {                                                                               \
        unsigned char *here = (unsigned char *)alloca(16);                             \
        below = (unsigned char *)alloca((size_t)(here - floor_at) - (SAID) - LITTLE);  \
    } while (0)

static __attribute__((noinline)) void read_each(void) {
    GIVE_AWAY(KAMBELOHI_READ_STACK);
    for (size_t n = 0; n <= msg_len + 2; n++) {
        kambelohi_read_answer a = kambelohi_read(msg, msg_len, n <= msg_len + 1 ? n : SIZE_MAX, false);
        reading.calls++;
        reading.refusals[a.number % 32]++;
    }
}

static __attribute__((noinline)) void read_all(void) {
    GIVE_AWAY(KAMBELOHI_READ_ALL_STACK);
    for (size_t few = 0; few < 2; few++) {
        kambelohi_read_all_answer a = kambelohi_read_all(msg, msg_len, false, readings, KAMBELOHI_READINGS - few);
        slices.calls++;
        slices.refusals[a.number % 32]++;
    }
}

static __attribute__((noinline)) void list_all(void) {
    GIVE_AWAY(KAMBELOHI_LIST_STACK);
    size_t past = 0;
    for (size_t n = 0; past < 5; n++) {
        /* after the end or a refusal: two more, the last number, and a slice of too few records */
        size_t answer = past < 3 ? n : past == 3 ? SIZE_MAX : 0;
        size_t count = past == 4 ? KAMBELOHI_RECORDS - 1 : KAMBELOHI_RECORDS;
        kambelohi_list_answer a = kambelohi_list(file, file_len, msg, msg_len, answer, spans, count);
        listing.calls++;
        listing.refusals[a.number % 32]++;
        past += past > 0 || a.kind == KAMBELOHI_LAST || a.kind == KAMBELOHI_LIST_REFUSED;
    }
}

static __attribute__((noinline)) void place_all(void) {
    GIVE_AWAY(KAMBELOHI_PLACE_STACK);
    size_t past = 0;
    for (size_t n = 0; past < 5; n++) {
        size_t answer = past < 3 ? n : past == 3 ? SIZE_MAX : 0;
        size_t count = past == 4 ? KAMBELOHI_RECORDS - 1 : KAMBELOHI_RECORDS;
        kambelohi_place_answer a = kambelohi_place(file, file_len, msg, msg_len, answer, spans, count);
        placing.calls++;
        placing.refusals[a.number % 32]++;
        past += past > 0 || a.kind == KAMBELOHI_LAST || a.kind == KAMBELOHI_LIST_REFUSED;
    }
}

static __attribute__((noinline)) void list_whole(void) {
    GIVE_AWAY(KAMBELOHI_LIST_ALL_STACK);
    for (size_t n = 0; n < 3; n++) {
        /* on slices of as many as are asked, of an answer less, and of a record less */
        kambelohi_list_all_answer a = kambelohi_list_all(file, file_len, msg, msg_len, shown, KAMBELOHI_ALL_ANSWERS - (n == 1), spans,
                                                         KAMBELOHI_ALL_RECORDS - (n == 2));
        whole.calls++;
        whole.refusals[a.number % 32]++;
    }
}

static __attribute__((noinline)) void tell_all(void) {
    static const uint16_t places[] = {0, 9, 10, 99, 100, 999, 1000, 9999, 10000, 65535};
    static uint8_t buffer[KAMBELOHI_SENTENCE_BYTES];
    GIVE_AWAY(KAMBELOHI_SENTENCE_STACK);
    for (size_t n = 0; n < 256 * 10; n++) {
        uint16_t place = places[n % 10];
        for (size_t few = 0; few < 2; few++) {
            kambelohi_sentence_answer a = kambelohi_sentence((uint8_t)(n / 10), place, place, place, buffer, sizeof buffer - few);
            telling.calls++;
            telling.refusals[a.number % 32]++;
        }
    }
}

static void *run(void *all) {
    /* where an overrun is told: its own stack */
    static unsigned char other[64 * 1024];
    stack_t s;
    memset(&s, 0, sizeof s);
    s.ss_sp = other;
    s.ss_size = sizeof other;
    if (sigaltstack(&s, NULL) != 0) {
        fail(2, "sigaltstack");
    }
    if (all == &listing) {
        list_all();
    } else if (all == &placing) {
        place_all();
    } else if (all == &whole) {
        list_whole();
    } else if (all == &telling) {
        tell_all();
    } else if (all == &slices) {
        read_all();
    } else {
        read_each();
    }
    return NULL;
}

/* The calls of a case on a thread, and what they took. */
static void take(measure *m) {
    pthread_attr_t attr;
    pthread_t thread;
    memset(floor_at, PAINT, m->said + LITTLE);
    snprintf(overrun_text, sizeof overrun_text, "stack: line %zu: %s takes more than the %zu bytes that include/kambelohi.h says\n",
             line_number, m->name, m->said);
    if (pthread_attr_init(&attr) != 0 || pthread_attr_setstack(&attr, floor_at, STACK_SIZE) != 0
        || pthread_create(&thread, &attr, run, m) != 0 || pthread_join(thread, NULL) != 0 || pthread_attr_destroy(&attr) != 0) {
        fail(2, "no thread");
    }
    size_t room = (size_t)(below - floor_at);
    if (room < m->said || room > m->said + LITTLE) {
        fail(2, "the stack given away is not what it should be");
    }
    unsigned char *low = floor_at;
    while (low < below && *low == PAINT) {
        low++;
    }
    size_t took = (size_t)(below - low);
    m->most = took > m->most ? took : m->most;
}

/* Bytes in hexadecimal pairs, or - for none; never null. */
static uint8_t *decode(const char *hex, size_t *len) {
    size_t n = strcmp(hex, "-") == 0 ? 0 : strlen(hex);
    uint8_t *bytes = malloc(n / 2 + 1);
    if (bytes == NULL || n % 2 != 0) {
        fail(2, "bad bytes");
    }
    for (size_t i = 0; i < n / 2; i++) {
        unsigned byte;
        if (sscanf(hex + 2 * i, "%2x", &byte) != 1) {
            fail(2, "bad bytes");
        }
        bytes[i] = (uint8_t)byte;
    }
    *len = n / 2;
    return bytes;
}

static void line(const char *text) {
    if (strncmp(text, "S ", 2) == 0) {
        free(file);
        file = decode(text + 2, &file_len);
    } else if (strncmp(text, "L ", 2) == 0 || strncmp(text, "V ", 2) == 0) {
        msg = decode(text + 2, &msg_len);
        take(&reading);
        take(&slices);
        if (text[0] == 'L') {
            take(&listing);
            take(&placing);
            take(&whole);
        }
        free(msg);
    } else if (strchr("IDXQke", text[0]) == NULL) {
        fail(2, "no line of a case stream");
    }
}

/* Whether the header's number is true of what was measured, and the cases were enough to say so. */
static int judge(const measure *m, size_t first, size_t last) {
    int bad = m->most > m->said || 4 * m->most <= 3 * m->said;
    printf("stack: %s took at most %zu of the %zu bytes that the header says, in %zu calls\n", m->name, m->most, m->said, m->calls);
    if (bad) {
        fprintf(stderr, "stack: %s: not between three quarters of what the header says and that\n", m->name);
    }
    for (size_t n = first; n <= last; n++) {
        if (m->refusals[n] == 0) {
            fprintf(stderr, "stack: %s: no case has refusal %zu\n", m->name, n);
            bad = 1;
        }
    }
    return bad;
}

int main(void) {
    char *text = NULL;
    size_t size = 0;
    ssize_t n;
    struct sigaction action;
    unsigned char *map = mmap(NULL, PAGE + STACK_SIZE, PROT_READ | PROT_WRITE, MAP_PRIVATE | MAP_ANONYMOUS | MAP_STACK, -1, 0);
    memset(&action, 0, sizeof action);
    action.sa_handler = overrun;
    action.sa_flags = SA_ONSTACK;
    if (map == MAP_FAILED || sysconf(_SC_PAGESIZE) != PAGE || mprotect(map, PAGE, PROT_NONE) != 0
        || sigaction(SIGSEGV, &action, NULL) != 0) {
        fail(2, "no stack with a page below it");
    }
    floor_at = map + PAGE;
    file = decode("-", &file_len);
    take(&telling);
    while ((n = getline(&text, &size, stdin)) > 0) {
        line_number++;
        text[n - 1] = '\0';
        line(text);
    }
    free(text);
    free(file);
    return judge(&reading, 2, 7) | judge(&slices, 2, 4) | judge(&listing, 1, 15) | judge(&placing, 1, 15) | judge(&whole, 1, 15)
           | judge(&telling, 16, 16);
}
