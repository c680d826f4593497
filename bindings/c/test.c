/* Calls each function on texts that are whole, cut and damaged, with buffers that are missing,
   too small, exact and larger, with overlapping and null arguments, with memory that runs out at
   each allocation in turn, and on four threads at once. Prints nothing and ends with 0 where all
   is as warn_codes.h says. The first word is how many damaged texts are tried. */
#include <pthread.h>
#include <stdint.h>
#include <stdio.h>
#include <stdlib.h>
#include <string.h>

/* The library's memory, of which the allocation of this number fails; 0: none does. */
static _Thread_local size_t fails_at, allocations;

static int has_memory(void) {
    return ++allocations != fails_at;
}

static void *test_malloc(size_t size) {
    return has_memory() ? malloc(size) : NULL;
}

static void *test_realloc(void *at, size_t size) {
    return has_memory() ? realloc(at, size) : NULL;
}

#define malloc test_malloc
#define realloc test_realloc
#include "heap.c"
#undef malloc
#undef realloc

#include "warn_codes.h"

#define WANT(holds)                                               \
    do {                                                          \
        if (!(holds)) {                                           \
            fprintf(stderr, "test.c:%d: %s\n", __LINE__, #holds); \
            exit(1);                                              \
        }                                                         \
    } while (0)

static const char VTEC[] = "/O.NEW.KLWX.WS.W.0001.180103T1530Z-180104T0000Z/";
static const char HVTEC[] = "/FREV2.1.ER.180103T1530Z.180104T0000Z.000000T0000Z.NO/";
static const char UGC[] = "MDZ003>005-VAZ028-031500-";
static const char PRODUCT[] =
    "WWUS41 KLWX 031530 COR\nWSWLWX\n\nURGENT\n1030 AM EST Wed Jan 3 "
    "2018\n\nMDZ003>005-VAC013-032330-\n"
    "/O.NEW.KLWX.WS.W.0001.180103T1530Z-180104T0000Z/\n"
    "/O.NEW.KLWX.FL.W.0002.180103T1530Z-180104T0000Z/\n"
    "/FREV2.1.ER.180103T1530Z.180104T0000Z.000000T0000Z.NO/\nFrederick-\n1030 AM EST Wed Jan 3 "
    "2018\n\n"
    "$$\n\nMDZ009-032330-\n/O.NEW.KLWX.WS.W.0001.180103T1530Z-180104T0000Z/\n\n$$\n";

/* The bytes alone, so that a read behind them is seen. */
static char *copy_of(const char *text, size_t length) {
    char *copy = malloc(length ? length : 1);
    WANT(copy != NULL);
    memcpy(copy, text, length);
    return copy;
}

static void test_codes(void) {
    struct warn_codes_vtec v;
    struct warn_codes_hvtec h;
    char text[54];
    WANT(warn_codes_read_vtec(VTEC, 48, &v) == WARN_CODES_OK);
    WANT(v.vtec_class == 'O' && memcmp(v.action, "NEW", 3) == 0 &&
         memcmp(v.office, "KLWX", 4) == 0);
    WANT(memcmp(v.phenomenon, "WS", 2) == 0 && v.significance == 'W' && v.number == 1);
    WANT(WARN_CODES_UNIX_SECONDS(v.begin) == 1514993400 &&
         WARN_CODES_UNIX_SECONDS(v.end) == 1515024000);
    WANT(warn_codes_write_vtec(&v, text) == WARN_CODES_OK && memcmp(text, VTEC, 48) == 0);
    WANT(warn_codes_read_hvtec(HVTEC, 54, &h) == WARN_CODES_OK);
    WANT(memcmp(h.location, "FREV2", 5) == 0 && h.severity == '1' &&
         memcmp(h.cause, "ER", 2) == 0);
    WANT(h.end == WARN_CODES_NO_TIME && memcmp(h.record_status, "NO", 2) == 0);
    WANT(warn_codes_write_hvtec(&h, text) == WARN_CODES_OK && memcmp(text, HVTEC, 54) == 0);
    struct warn_codes_vtec kept = v;
    WANT(warn_codes_read_vtec(VTEC, 47, &v) == WARN_CODES_NOT_VTEC &&
         memcmp(&v, &kept, sizeof v) == 0);
    WANT(warn_codes_read_hvtec(VTEC, 48, &h) == WARN_CODES_NOT_HVTEC);
    v.number = 10000;
    memset(text, 'x', sizeof text);
    WANT(warn_codes_write_vtec(&v, text) == WARN_CODES_BAD_VALUE && text[0] == 'x' &&
         text[47] == 'x');
    v = kept;
    v.begin = 52596000;
    WANT(warn_codes_write_vtec(&v, text) == WARN_CODES_BAD_VALUE);
    v = kept;
    v.office[1] = 'x';
    WANT(warn_codes_write_vtec(&v, text) == WARN_CODES_BAD_VALUE);
    h.severity = '4';
    WANT(warn_codes_write_hvtec(&h, text) == WARN_CODES_BAD_VALUE);
}

static void test_arguments(void) {
    union {
        struct warn_codes_vtec v;
        char bytes[64];
    } both;
    struct warn_codes_zone zones[8];
    struct warn_codes_ugc ugc;
    size_t needed = 7;
    memcpy(both.bytes, VTEC, 48);
    WANT(warn_codes_read_vtec(NULL, 0, &both.v) == WARN_CODES_NOT_VTEC);
    WANT(warn_codes_read_vtec(NULL, 1, &both.v) == WARN_CODES_BAD_ARGUMENT);
    WANT(warn_codes_read_vtec(VTEC, 48, NULL) == WARN_CODES_BAD_ARGUMENT);
    WANT(warn_codes_read_vtec(both.bytes, 48, &both.v) == WARN_CODES_BAD_ARGUMENT);
    WANT(warn_codes_read_vtec(VTEC, SIZE_MAX, &both.v) == WARN_CODES_BAD_ARGUMENT);
    WANT(warn_codes_read_vtec(VTEC, 48, (struct warn_codes_vtec *)(void *)(both.bytes + 1)) ==
         WARN_CODES_BAD_ARGUMENT);
    WANT(warn_codes_write_vtec(&both.v, both.bytes + 8) == WARN_CODES_BAD_ARGUMENT);
    WANT(memcmp(both.bytes, VTEC, 48) == 0);
    WANT(warn_codes_read_ugc(UGC, 25, NULL, 0, &ugc) == WARN_CODES_TOO_SMALL && ugc.zones == 4);
    WANT(warn_codes_read_ugc(UGC, 25, NULL, 4, &ugc) == WARN_CODES_BAD_ARGUMENT);
    WANT(warn_codes_read_ugc(UGC, 25, zones, SIZE_MAX / 2, &ugc) == WARN_CODES_BAD_ARGUMENT);
    WANT(warn_codes_read_ugc(UGC, 25, (struct warn_codes_zone *)(void *)&ugc, 1, &ugc) ==
         WARN_CODES_BAD_ARGUMENT);
    WANT(warn_codes_split(NULL, 0, NULL, 0, &needed) == WARN_CODES_OK && needed == 0);
    WANT(warn_codes_split(PRODUCT, 10, NULL, 0, NULL) == WARN_CODES_BAD_ARGUMENT);
    struct warn_codes_asked asked = {WARN_CODES_ALL, 52596000, "KLWX", 'O'};
    WANT(warn_codes_ask(NULL, 0, &asked, NULL, 0, &needed) == WARN_CODES_BAD_ARGUMENT);
    asked.minute = 0;
    WANT(warn_codes_ask(NULL, 0, &asked, NULL, 0, &needed) == WARN_CODES_OK && needed == 0);
    asked.vtec_class = 'Q';
    WANT(warn_codes_ask(NULL, 0, &asked, NULL, 0, &needed) == WARN_CODES_BAD_ARGUMENT);
    WANT(warn_codes_ask(NULL, 0, NULL, NULL, 0, &needed) == WARN_CODES_BAD_ARGUMENT);
}

static void test_ugc(void) {
    struct warn_codes_zone zones[6];
    struct warn_codes_ugc ugc;
    memset(zones, 'x', sizeof zones);
    WANT(warn_codes_read_ugc(UGC, sizeof UGC - 1, zones, 3, &ugc) == WARN_CODES_TOO_SMALL &&
         zones[0].kind == 'x');
    WANT(warn_codes_read_ugc(UGC, sizeof UGC - 1, zones, 6, &ugc) == WARN_CODES_OK);
    WANT(ugc.zones == 4 && ugc.used == 25 && ugc.day == 3 && ugc.hour == 15 && ugc.minute == 0);
    WANT(memcmp(zones[3].state, "VA", 2) == 0 && zones[3].kind == 'Z' && zones[3].number == 28 &&
         zones[4].kind == 'x');
    WANT(warn_codes_read_ugc("MDZ003-04-031500-", 17, zones, 6, &ugc) ==
             WARN_CODES_UGC_NOT_A_CODE &&
         ugc.fault_at == 7);
    WANT(warn_codes_read_ugc("MDZ005>003-031500-", 18, zones, 6, &ugc) ==
             WARN_CODES_UGC_BAD_RANGE &&
         ugc.fault_at == 0);
    WANT(warn_codes_read_ugc("MDZ003-004", 10, zones, 6, &ugc) == WARN_CODES_UGC_CUT_SHORT);
}

/* The frame of a text, with buffers of the size that the call asks for; each smaller one is
 * refused and stays as it was. */
static enum warn_codes_status frame_of(const char *text, size_t length,
                                       struct warn_codes_frame *frame) {
    enum warn_codes_status status =
        warn_codes_read_frame(text, length, NULL, 0, NULL, 0, NULL, 0, frame);
    if (status != WARN_CODES_TOO_SMALL)
        return status;
    size_t s = frame->segments, z = frame->zones, l = frame->lines;
    struct warn_codes_segment *segments = malloc(s * sizeof *segments + 1);
    struct warn_codes_zone *zones = malloc(z * sizeof *zones + 1);
    struct warn_codes_line *lines = malloc(l * sizeof *lines + 1);
    WANT(segments && zones && lines);
    memset(zones, 'x', z * sizeof *zones);
    if (z > 0)
        WANT(warn_codes_read_frame(text, length, segments, s, zones, z - 1, lines, l, frame) ==
                 WARN_CODES_TOO_SMALL &&
             zones[0].kind == 'x');
    status = warn_codes_read_frame(text, length, segments, s, zones, z, lines, l, frame);
    WANT(status == WARN_CODES_OK && frame->segments == s && frame->zones == z &&
         frame->lines == l);
    for (size_t i = 0; i < s; i++) {
        WANT(segments[i].zones <= z && segments[i].lines <= l);
        z -= segments[i].zones;
        l -= segments[i].lines;
    }
    WANT(z == 0 && l == 0);
    for (size_t i = 0; i < frame->lines; i++) {
        char again[48];
        struct warn_codes_vtec vtec;
        WANT(warn_codes_write_vtec(&lines[i].vtec, again) == WARN_CODES_OK);
        WANT(warn_codes_read_vtec(again, 48, &vtec) == WARN_CODES_OK &&
             vtec.begin == lines[i].vtec.begin);
    }
    free(segments);
    free(zones);
    free(lines);
    return status;
}

static void test_frames(void) {
    struct warn_codes_frame frame;
    WANT(frame_of(PRODUCT, sizeof PRODUCT - 1, &frame) == WARN_CODES_OK);
    WANT(frame.segments == 2 && frame.zones == 5 && frame.lines == 3 &&
         memcmp(frame.identifier, "WSWLWX", 6) == 0);
    WANT(memcmp(frame.heading, "WWUS41", 6) == 0 && memcmp(frame.office, "KLWX", 4) == 0);
    WANT(memcmp(frame.bbb, "COR", 3) == 0 && frame.day == 3 && frame.hour == 15 &&
         frame.minute == 30);
    WANT(WARN_CODES_UNIX_SECONDS(frame.issue) == 1514993400);
    WANT(frame_of("no product", 10, &frame) == WARN_CODES_NO_HEADING && frame.fault_line == 0);
    WANT(frame_of(PRODUCT, 141, &frame) == WARN_CODES_NO_SEGMENT_END && frame.fault_line == 7);
}

/* All answers about a text. */
static enum warn_codes_status ask_all(const char *text, size_t length, size_t *rows) {
    struct warn_codes_asked asked = {WARN_CODES_ALL, 9471630, "KLWX", 'O'};
    enum warn_codes_status status = warn_codes_ask(text, length, &asked, NULL, 0, rows);
    if (status != WARN_CODES_TOO_SMALL)
        return status;
    size_t room = *rows;
    struct warn_codes_row *row = malloc(room * sizeof *row);
    WANT(row != NULL);
    status = warn_codes_ask(text, length, &asked, row, room, rows);
    WANT(status != WARN_CODES_OK || *rows == room);
    for (size_t i = 0; status == WARN_CODES_OK && i < room; i++)
        WANT(row[i].kind >= 1 && row[i].kind <= 4);
    free(row);
    return status;
}

static void test_archives(void) {
    size_t rows = 0, spans = 0;
    WANT(ask_all(PRODUCT, sizeof PRODUCT - 1, &rows) == WARN_CODES_OK);
    /* a life of five zones and of the flood in four; the flood's number 2 where 1 was wanted;
     * nine rows are shown */
    WANT(rows == 5 + 4 + 1 + 9);
    struct warn_codes_span span[1];
    WANT(warn_codes_split(PRODUCT, sizeof PRODUCT - 1, span, 1, &spans) == WARN_CODES_OK &&
         spans == 1);
    WANT(span[0].from == 0 && span[0].to == sizeof PRODUCT - 1);
}

/* All answers of a reader that takes a text in pieces of a length, twice over as two streams if
 * `streams` is 2. */
static size_t read_in_pieces(const char *text, size_t length, size_t piece, int streams,
                             struct warn_codes_row *rows, size_t room) {
    struct warn_codes_reader reader = {0};
    size_t needed = 0;
    WANT(warn_codes_open(&reader, "KLWX", 'O') == WARN_CODES_OK && reader.is_open == 1);
    for (int stream = 0; stream < streams; stream++) {
        for (size_t at = 0; at < length; at += piece) {
            size_t some = length - at < piece ? length - at : piece;
            char *copy = copy_of(text + at, some);
            WANT(warn_codes_take(&reader, copy, some) == WARN_CODES_OK);
            free(copy);
        }
        WANT(warn_codes_end(&reader) == WARN_CODES_OK);
    }
    WANT(warn_codes_tell(&reader, WARN_CODES_ALL, 9471630, rows, room, &needed) == WARN_CODES_OK);
    WANT(warn_codes_close(&reader) == WARN_CODES_OK && reader.is_open == 0);
    return needed;
}

static void test_reader(void) {
    struct warn_codes_reader reader = {0};
    struct warn_codes_row whole[64], rows[64];
    struct warn_codes_asked asked = {WARN_CODES_ALL, 9471630, "KLWX", 'O'};
    size_t needed = 7, wanted;
    WANT(warn_codes_ask(PRODUCT, sizeof PRODUCT - 1, &asked, whole, 64, &wanted) ==
         WARN_CODES_OK);
    for (size_t piece = 1; piece < sizeof PRODUCT; piece += piece < 60 ? 1 : 97) {
        memset(rows, 'x', sizeof rows);
        WANT(read_in_pieces(PRODUCT, sizeof PRODUCT - 1, piece, 1, rows, 64) == wanted &&
             memcmp(rows, whole, wanted * sizeof *rows) == 0);
    }
    /* the second time each of the nine lines opens its event again: product 2 */
    WANT(read_in_pieces(PRODUCT, sizeof PRODUCT - 1, 50, 2, rows, 64) == wanted + 9);
    WANT(rows[9].kind == WARN_CODES_BREACHES && rows[9].product == 2 &&
         rows[9].breach == WARN_CODES_REOPENED);
    /* calls on one that is closed, and arguments that no call takes */
    WANT(warn_codes_take(&reader, PRODUCT, 9) == WARN_CODES_BAD_ARGUMENT);
    WANT(warn_codes_end(&reader) == WARN_CODES_BAD_ARGUMENT);
    WANT(warn_codes_tell(&reader, WARN_CODES_LIVES, 0, NULL, 0, &needed) ==
             WARN_CODES_BAD_ARGUMENT &&
         needed == 7);
    WANT(warn_codes_close(&reader) == WARN_CODES_OK);
    WANT(warn_codes_open(&reader, "klwx", 'O') == WARN_CODES_BAD_ARGUMENT);
    WANT(warn_codes_open(&reader, "KLWX", 'Q') == WARN_CODES_BAD_ARGUMENT);
    WANT(warn_codes_open(&reader, NULL, 'O') == WARN_CODES_BAD_ARGUMENT);
    WANT(warn_codes_open(NULL, "KLWX", 'O') == WARN_CODES_BAD_ARGUMENT && !reader.is_open);
    WANT(warn_codes_open(&reader, "KLWX", 'O') == WARN_CODES_OK);
    WANT(warn_codes_open(&reader, "KLWX", 'O') == WARN_CODES_BAD_ARGUMENT && reader.is_open);
    WANT(warn_codes_take(&reader, NULL, 0) == WARN_CODES_OK);
    WANT(warn_codes_take(&reader, NULL, 1) == WARN_CODES_BAD_ARGUMENT);
    WANT(warn_codes_take(&reader, PRODUCT, SIZE_MAX) == WARN_CODES_BAD_ARGUMENT);
    WANT(warn_codes_take(&reader, &reader, 8) == WARN_CODES_BAD_ARGUMENT);
    /* a product has not ended before it is said so */
    WANT(warn_codes_take(&reader, PRODUCT, sizeof PRODUCT - 1) == WARN_CODES_OK);
    WANT(warn_codes_tell(&reader, WARN_CODES_LIVES, 0, NULL, 0, &needed) == WARN_CODES_OK &&
         needed == 0);
    WANT(warn_codes_end(&reader) == WARN_CODES_OK);
    WANT(warn_codes_tell(&reader, WARN_CODES_LIVES, 0, rows, 8, &needed) ==
             WARN_CODES_TOO_SMALL &&
         needed == 9);
    WANT(warn_codes_tell(&reader, (enum warn_codes_question)6, 0, rows, 64, &needed) ==
         WARN_CODES_BAD_ARGUMENT);
    WANT(warn_codes_tell(&reader, WARN_CODES_SHOWN, 52596000, rows, 64, &needed) ==
         WARN_CODES_BAD_ARGUMENT);
    WANT(warn_codes_tell(&reader, WARN_CODES_LIVES, 0, NULL, 9, &needed) ==
         WARN_CODES_BAD_ARGUMENT);
    WANT(warn_codes_tell(&reader, WARN_CODES_LIVES, 0, rows, 64, NULL) ==
         WARN_CODES_BAD_ARGUMENT);
    WANT(warn_codes_tell(&reader, WARN_CODES_LIVES, 0, rows, 64, &needed) == WARN_CODES_OK);
    WANT(needed == 9 && warn_codes_life_length(rows, needed) == 1);
    struct warn_codes_row *more;
    WANT(warn_codes_tell_new(&reader, WARN_CODES_LIVES, 0, &more, &needed) == WARN_CODES_OK);
    WANT(needed == 9 && memcmp(more, rows, 9 * sizeof *rows) == 0);
    free(more);
    WANT(warn_codes_tell_new(&reader, WARN_CODES_BREACHES, 0, &more, &needed) == WARN_CODES_OK);
    WANT(needed == 0 && more == NULL);
    WANT(warn_codes_life_length(rows, 0) == 0);
    char text[22];
    WANT(strcmp(warn_codes_life_text(&rows[8], text), "WS.W.0001.2018 VAC013") == 0);
    WANT(strcmp(warn_codes_step_text(&rows[8], text), "NEW@180103T1530Z") == 0);
    WANT(strcmp(warn_codes_time_text(WARN_CODES_NO_TIME, text), "000000T0000Z") == 0);
    uint32_t time = 7;
    WANT(warn_codes_time_of("180103T1530Z", &time) == WARN_CODES_OK && time == rows[8].issue);
    WANT(warn_codes_time_of("000000T0000Z", &time) == WARN_CODES_OK &&
         time == WARN_CODES_NO_TIME);
    WANT(warn_codes_time_of("180229T1530Z", &time) == WARN_CODES_BAD_VALUE);
    WANT(warn_codes_time_of("180103T1530", &time) == WARN_CODES_BAD_VALUE);
    WANT(warn_codes_time_of(NULL, &time) == WARN_CODES_BAD_ARGUMENT);
    WANT(warn_codes_close(&reader) == WARN_CODES_OK && reader.at == NULL);
}

static uint64_t drawn = 88172645463325252u;

static uint64_t draw(uint64_t below) {
    drawn ^= drawn << 13;
    drawn ^= drawn >> 7;
    drawn ^= drawn << 17;
    return drawn % below;
}

static void test_damaged(size_t count) {
    for (size_t i = 0; i < count; i++) {
        size_t length = draw(8) ? sizeof PRODUCT - 1 : draw(sizeof PRODUCT);
        char *text = copy_of(PRODUCT, length);
        for (size_t k = draw(4); k > 0 && length > 0; k--)
            text[draw(length)] = draw(3) ? "\n\r -/>$0129AZ.T"[draw(15)] : (char)draw(256);
        struct warn_codes_frame frame;
        struct warn_codes_zone zones[2];
        struct warn_codes_ugc ugc;
        struct warn_codes_vtec v;
        struct warn_codes_hvtec h;
        size_t rows, from = draw(length + 1);
        frame_of(text, length, &frame);
        warn_codes_read_ugc(text + from, length - from, zones, draw(3), &ugc);
        warn_codes_read_vtec(text + from, length - from < 48 ? length - from : 48, &v);
        warn_codes_read_hvtec(text + from, length - from < 54 ? length - from : 54, &h);
        if (i % 8 == 0) {
            struct warn_codes_row found[256];
            WANT(ask_all(text, length, &rows) == WARN_CODES_OK && rows <= 256);
            WANT(read_in_pieces(text, length, 1 + draw(200), 1, found, 256) == rows);
        }
        free(text);
    }
}

/* Where one allocation fails, the call says so or does without, writes nothing, and can be made
 * again. */
static void test_memory(void) {
    struct warn_codes_asked asked = {WARN_CODES_ALL, 9471630, "KLWX", 'O'};
    struct warn_codes_row rows[64];
    struct warn_codes_frame frame;
    size_t needed, refused = 0;
    fails_at = 0;
    do {
        fails_at++;
        allocations = 0;
        memset(rows, 'x', sizeof rows);
        enum warn_codes_status status =
            warn_codes_ask(PRODUCT, sizeof PRODUCT - 1, &asked, rows, 64, &needed);
        WANT(status == WARN_CODES_OK || (status == WARN_CODES_NO_MEMORY && rows[0].kind == 'x'));
        refused += status == WARN_CODES_NO_MEMORY;
    } while (allocations >= fails_at);
    WANT(refused > 10);
    fails_at = 0;
    do {
        fails_at++;
        allocations = 0;
        enum warn_codes_status status =
            warn_codes_read_frame(PRODUCT, sizeof PRODUCT - 1, NULL, 0, NULL, 0, NULL, 0, &frame);
        WANT(status == WARN_CODES_TOO_SMALL || status == WARN_CODES_NO_MEMORY);
    } while (allocations >= fails_at);
    fails_at = 0;
}

/* A reader that lacks memory is closed where it takes, and as it was where it tells. */
static void test_reader_memory(void) {
    struct warn_codes_row rows[64];
    size_t needed, closed = 0, told = 0;
    fails_at = 0;
    do {
        struct warn_codes_reader reader = {0};
        allocations = 0;
        fails_at++;
        enum warn_codes_status status = warn_codes_open(&reader, "KLWX", 'O');
        WANT(status == WARN_CODES_OK || (status == WARN_CODES_NO_MEMORY && !reader.is_open));
        if (status == WARN_CODES_OK)
            status = warn_codes_take(&reader, PRODUCT, sizeof PRODUCT - 1);
        if (status == WARN_CODES_OK)
            status = warn_codes_end(&reader);
        if (status == WARN_CODES_OK) {
            memset(rows, 'x', sizeof rows);
            status = warn_codes_tell(&reader, WARN_CODES_ALL, 9471630, rows, 64, &needed);
            if (status == WARN_CODES_NO_MEMORY) {
                told++;
                WANT(rows[0].kind == 'x');
                status = warn_codes_tell(&reader, WARN_CODES_ALL, 9471630, rows, 64, &needed);
            }
            WANT(status == WARN_CODES_OK && needed == 5 + 4 + 1 + 9);
        } else {
            closed++;
            WANT(status == WARN_CODES_NO_MEMORY && !reader.is_open && reader.at == NULL);
        }
        WANT(warn_codes_close(&reader) == WARN_CODES_OK);
    } while (allocations >= fails_at);
    WANT(closed > 10 && told > 5);
    fails_at = 0;
}

static void *on_a_thread(void *rows) {
    for (int i = 0; i < 50; i++) {
        struct warn_codes_row found[64];
        WANT(ask_all(PRODUCT, sizeof PRODUCT - 1, rows) == WARN_CODES_OK);
        WANT(read_in_pieces(PRODUCT, sizeof PRODUCT - 1, 40, 1, found, 64) == *(size_t *)rows);
    }
    return NULL;
}

/* A reader may go from thread to thread. */
static void *ends_on_a_thread(void *reader) {
    size_t needed = 0;
    WANT(warn_codes_end(reader) == WARN_CODES_OK);
    WANT(warn_codes_tell(reader, WARN_CODES_LIVES, 0, NULL, 0, &needed) == WARN_CODES_TOO_SMALL);
    WANT(needed == 9 && warn_codes_close(reader) == WARN_CODES_OK);
    return NULL;
}

static void test_threads(void) {
    pthread_t threads[4];
    size_t rows[4], alone;
    WANT(ask_all(PRODUCT, sizeof PRODUCT - 1, &alone) == WARN_CODES_OK);
    for (int i = 0; i < 4; i++)
        WANT(pthread_create(&threads[i], NULL, on_a_thread, &rows[i]) == 0);
    for (int i = 0; i < 4; i++)
        WANT(pthread_join(threads[i], NULL) == 0 && rows[i] == alone);
    struct warn_codes_reader reader = {0};
    WANT(warn_codes_open(&reader, "KLWX", 'O') == WARN_CODES_OK);
    WANT(warn_codes_take(&reader, PRODUCT, sizeof PRODUCT - 1) == WARN_CODES_OK);
    WANT(pthread_create(&threads[0], NULL, ends_on_a_thread, &reader) == 0);
    WANT(pthread_join(threads[0], NULL) == 0 && !reader.is_open);
}

int main(int words, char **word) {
    test_codes();
    test_arguments();
    test_ugc();
    test_frames();
    test_archives();
    test_reader();
    test_damaged(words > 1 ? strtoul(word[1], NULL, 10) : 1000);
    test_memory();
    test_reader_memory();
    test_threads();
    return 0;
}
