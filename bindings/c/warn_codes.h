/* The codes of NWS products, read and written: P-VTEC and H-VTEC (NWS Instruction 10-1703), UGC
   (10-1702), the frame of a product (10-1701), and what the products of an archive say of each
   event.

   Link with libwarn_codes.a (docs/LIBRARY.md says how it is made). The functions that begin with
   warn_codes_c_ are those of the proved library; call those that begin with warn_codes_, which
   first test what the library takes for granted.

   In all calls:

   - A text is a pointer to bytes and their count. No byte has a special meaning, NUL neither.
     A null pointer is taken where the count is 0.
   - A buffer is a pointer to room for so many structs, whose contents before the call do not
     matter. A null pointer is taken where the room is 0. A call that needs more room writes
     nothing into any buffer, says how much it needs, and returns WARN_CODES_TOO_SMALL: call
     again with that much. What is behind the rows that were written is as it was.
   - What the caller owes: a pointer and its count name memory that is the caller's for as long
     as the call lasts, and that nothing else writes meanwhile. This cannot be tested from
     within. What can be is: a null pointer with a count above 0, a buffer that overlaps a text
     or another buffer, an address that is not aligned, and a count beyond PTRDIFF_MAX bytes
     return WARN_CODES_BAD_ARGUMENT, and nothing is read or written.
   - Memory comes from malloc, and all of it is freed before the call returns, but for what an open
     reader holds. WARN_CODES_NO_MEMORY says that there was too little; nothing is written then,
     and the call may be made again. A reader that lacks memory while it takes is closed.
   - Nothing is kept between calls but in a reader, which is the caller's. So any thread may make
     any call at any time, as long as one call at a time is made with one reader. Do not call from
     a signal handler, nor in the forked child of a process with threads. */
#ifndef WARN_CODES_H
#define WARN_CODES_H

#include <stddef.h>
#include <stdint.h>
#include <stdlib.h>
#include <string.h>

#ifdef __cplusplus
extern "C" {
#endif

/* How a call ended. */
enum warn_codes_status {
    WARN_CODES_OK = 0,
    WARN_CODES_NO_MEMORY = 1,
    /* a buffer is too small; none is written */
    WARN_CODES_TOO_SMALL = 2,
    /* an argument that no call takes */
    WARN_CODES_BAD_ARGUMENT = 3,
    /* the bytes are no P-VTEC text; no H-VTEC text */
    WARN_CODES_NOT_VTEC = 4,
    WARN_CODES_NOT_HVTEC = 5,
    /* no text has these fields */
    WARN_CODES_BAD_VALUE = 6,
    /* UGC: no zone, run of zones or expiry begins at fault_at */
    WARN_CODES_UGC_NOT_A_CODE = 10,
    /* UGC: the run that begins at fault_at does not go up */
    WARN_CODES_UGC_BAD_RANGE = 11,
    /* UGC: the bytes end before the expiry does */
    WARN_CODES_UGC_CUT_SHORT = 12,
    /* frames: no heading such as WWUS41 KLWX 031530 */
    WARN_CODES_NO_HEADING = 20,
    /* the next line that is not empty is no identifier such as WSWLWX */
    WARN_CODES_NO_IDENTIFIER = 21,
    /* no later line is a local time such as 1030 AM EST Wed Jan 3 2018 */
    WARN_CODES_NO_ISSUE_TIME = 22,
    /* the heading's day and time are not within twelve hours of it */
    WARN_CODES_ISSUE_DISAGREES = 23,
    /* the product ends within the segment whose zones begin on fault_line */
    WARN_CODES_NO_SEGMENT_END = 24,
    /* the zones that begin on fault_line are no UGC text, or do not fill their last line */
    WARN_CODES_BAD_UGC = 25,
    /* fault_line begins with a slash where codes stand, and is neither a P-VTEC text nor the one
       H-VTEC text behind it */
    WARN_CODES_BAD_VTEC = 26
};

/* A time is in minutes since 2000-01-01T00:00Z, up to the end of 2099. This one stands for zeros,
   000000T0000Z: of a beginning that the event has begun, of an end until further notice
   (10-1703). */
#define WARN_CODES_NO_TIME UINT32_MAX

/* The seconds since 1970-01-01T00:00Z of a time. */
#define WARN_CODES_UNIX_SECONDS(time) (INT64_C(946684800) + INT64_C(60) * (int64_t)(time))

/* P-VTEC, /k.aaa.cccc.pp.s.####.yymmddThhnnZ-yymmddThhnnZ/ (10-1703): class k (O, T, E, X),
   action aaa, office cccc, phenomenon pp, significance s, event tracking number ####, and when
   the event begins and ends. */
struct warn_codes_vtec {
    uint32_t begin;
    uint32_t end;
    uint16_t number;
    char phenomenon[2];
    char office[4];
    char action[3];
    char vtec_class;
    char significance;
};

/* H-VTEC, /nwsli.s.ic.yymmddThhnnZ.yymmddThhnnZ.yymmddThhnnZ.fr/ (10-1703): location, severity,
   immediate cause, when the flood begins, crests and ends, and the status of the record. */
struct warn_codes_hvtec {
    uint32_t begin;
    uint32_t crest;
    uint32_t end;
    char location[5];
    char severity;
    char cause[2];
    char record_status[2];
};

/* A zone or county (10-1702): state, kind (Z: public zone, C: county), and number, 1 to 999. */
struct warn_codes_zone {
    uint16_t number;
    char state[2];
    char kind;
};

/* What a UGC text says beside its zones (10-1702): their count, the bytes of the text up to the
   hyphen of its expiry, and the day, hour and minute (UTC) at which it expires. Where there is a
   fault, the byte at which it begins, from 0. */
struct warn_codes_ugc {
    size_t zones;
    size_t used;
    size_t fault_at;
    uint8_t day;
    uint8_t hour;
    uint8_t minute;
};

/* A segment (10-1701): how many zones and P-VTEC lines it has, and when it expires (UTC). */
struct warn_codes_segment {
    size_t zones;
    size_t lines;
    uint8_t day;
    uint8_t hour;
    uint8_t minute;
};

/* A P-VTEC line, and the H-VTEC line behind it if has_hvtec is 1. */
struct warn_codes_line {
    struct warn_codes_vtec vtec;
    struct warn_codes_hvtec hvtec;
    uint8_t has_hvtec;
};

/* The frame of a product (10-1701): how many segments it has, and zones and lines in all of them;
   its time of issue; of its heading the TTAAii, the office (CCCC), day, hour and minute (UTC),
   and the BBB, which is zeros where there is none; and its identifier (AWIPS ID) of four to six
   characters, with zeros behind. Where there is a fault, its line, which counts from the heading
   as line 1, or 0. */
struct warn_codes_frame {
    size_t segments;
    size_t zones;
    size_t lines;
    size_t fault_line;
    uint32_t issue;
    char heading[6];
    char identifier[6];
    char office[4];
    char bbb[3];
    uint8_t day;
    uint8_t hour;
    uint8_t minute;
};

/* Bytes from a place up to another, which is not among them. */
struct warn_codes_span {
    size_t from;
    size_t to;
};

/* An event: its number, the year in which it was opened, and its hazard. */
struct warn_codes_event {
    uint16_t number;
    uint16_t year;
    char phenomenon[2];
    char significance;
};

/* What may be asked of the products of an archive. */
enum warn_codes_question {
    /* for each event and zone, by event, then zone: its lawful lines in the order of the products
     */
    WARN_CODES_LIVES = 1,
    /* the lines that differ from the desk's rules, in the order of the text */
    WARN_CODES_BREACHES = 2,
    /* where an event was opened with another number than the next one of its hazard and year */
    WARN_CODES_GAPS = 3,
    /* the events that are live at a minute: no line has ended them, and they end after it. By
       zone, then event */
    WARN_CODES_SHOWN = 4,
    /* all of these, one after another */
    WARN_CODES_ALL = 5
};

/* The rule that a line breaks: docs/ARCHIVE.md describes each. */
enum warn_codes_breach {
    WARN_CODES_REOPENED = 1,
    WARN_CODES_NOT_OPENING = 2,
    WARN_CODES_NUMBER_HELD = 3,
    WARN_CODES_ZERO_BEGIN = 4,
    WARN_CODES_TOO_EARLY = 5,
    WARN_CODES_NO_LENGTH = 6,
    WARN_CODES_PERIOD_MOVED = 7,
    WARN_CODES_PERIOD_SAME = 8,
    WARN_CODES_NOT_LIVE = 9,
    WARN_CODES_BEGUN_MOVED = 10,
    WARN_CODES_TOO_LATE = 11,
    WARN_CODES_NO_HIGHER = 12,
    WARN_CODES_TWICE = 13
};

/* A row of an answer. Its kind is the number of the question that it answers (1 to 4), and says
   which fields it has; the others are 0. 1, a lawful line: event, zone, action, and the issue
   time of its product. A life is the rows of one event and zone. 2, a line in breach: event,
   zone, the number of its product among all of the archive, from 1, and the rule. 3, a gap: the
   event whose number was found, without a zone, and the number that was wanted. 4, an event that
   is live: event, zone, begin, end (WARN_CODES_NO_TIME: until further notice), and the values of
   its last H-VTEC line if has_hvtec is 1. */
struct warn_codes_row {
    uint32_t product;
    uint32_t issue;
    uint32_t begin;
    uint32_t end;
    struct warn_codes_hvtec hvtec;
    struct warn_codes_event event;
    struct warn_codes_zone zone;
    uint16_t wanted;
    char action[3];
    uint8_t breach;
    uint8_t has_hvtec;
    uint8_t kind;
};

/* A question about the products of an archive: lines of this office and class alone are followed.
   The minute counts for WARN_CODES_SHOWN and WARN_CODES_ALL. */
struct warn_codes_asked {
    uint32_t question;
    uint32_t minute;
    char office[4];
    char vtec_class;
};

/* A reader of the products of an office, which takes them as they come. A closed one is zeros:
   `struct warn_codes_reader reader = {0};`, in C++ `{}`. Between warn_codes_open and
   warn_codes_close it holds memory that it alone points to, so do not change it, and do not go on
   with a copy. It may be moved in memory, and used on another thread than before. */
struct warn_codes_reader {
    void *at;
    uint32_t is_open;
};

/* The functions of the library. Pointers are not null, aligned, and apart from each other; a
   reader is closed, or as the last call left it. */
uint32_t warn_codes_c_read_vtec(const void *text, size_t length, struct warn_codes_vtec *out);
uint32_t warn_codes_c_write_vtec(const struct warn_codes_vtec *fields, char *out);
uint32_t warn_codes_c_read_hvtec(const void *text, size_t length, struct warn_codes_hvtec *out);
uint32_t warn_codes_c_write_hvtec(const struct warn_codes_hvtec *fields, char *out);
uint32_t warn_codes_c_read_ugc(const void *text, size_t length, struct warn_codes_zone *zones,
                               size_t room, struct warn_codes_ugc *out);
uint32_t warn_codes_c_read_frame(const void *text, size_t length,
                                 struct warn_codes_segment *segments, size_t segment_room,
                                 struct warn_codes_zone *zones, size_t zone_room,
                                 struct warn_codes_line *lines, size_t line_room,
                                 struct warn_codes_frame *out);
uint32_t warn_codes_c_split(const void *text, size_t length, struct warn_codes_span *spans,
                            size_t room, size_t *needed);
uint32_t warn_codes_c_ask(const void *archive, size_t length,
                          const struct warn_codes_asked *asked, struct warn_codes_row *rows,
                          size_t room, size_t *needed);
uint32_t warn_codes_c_open(struct warn_codes_reader *reader, const char *office,
                           uint8_t vtec_class);
uint32_t warn_codes_c_take(struct warn_codes_reader *reader, const void *piece, size_t length);
uint32_t warn_codes_c_end(struct warn_codes_reader *reader);
uint32_t warn_codes_c_tell(struct warn_codes_reader *reader, uint32_t question, uint32_t minute,
                           struct warn_codes_row *rows, size_t room, size_t *needed);
uint32_t warn_codes_c_close(struct warn_codes_reader *reader);

#ifndef __cplusplus
_Static_assert(sizeof(struct warn_codes_vtec) == 24 && sizeof(struct warn_codes_hvtec) == 24 &&
                   sizeof(struct warn_codes_zone) == 6 && sizeof(struct warn_codes_ugc) == 32 &&
                   sizeof(struct warn_codes_segment) == 24 &&
                   sizeof(struct warn_codes_line) == 52 &&
                   sizeof(struct warn_codes_frame) == 64 &&
                   sizeof(struct warn_codes_span) == 16 && sizeof(struct warn_codes_row) == 64 &&
                   sizeof(struct warn_codes_asked) == 16 &&
                   sizeof(struct warn_codes_reader) == 16,
               "the structs of the library");
#endif

/* Memory of so many things of a size, aligned to a power of two. */
struct warn_codes_part_ {
    uintptr_t at;
    size_t bytes;
    int fits;
};

static inline struct warn_codes_part_ warn_codes_part_(const void *at, size_t count, size_t size,
                                                       size_t align) {
    struct warn_codes_part_ part = {(uintptr_t)at, 0, 0};
    if (count > (size_t)PTRDIFF_MAX / size)
        return part;
    part.bytes = count * size;
    part.fits = part.bytes == 0 ||
                (at != NULL && part.at % align == 0 && part.at <= UINTPTR_MAX - part.bytes);
    return part;
}

/* Whether each part is one that a call takes, and those from `texts` on are apart from all
 * others. Texts may overlap. */
static inline int warn_codes_parts_fit_(const struct warn_codes_part_ *parts, int texts,
                                        int count) {
    for (int i = 0; i < count; i++) {
        if (!parts[i].fits)
            return 0;
        for (int j = i < texts ? texts : 0; j < count; j++)
            if (j != i && parts[i].bytes && parts[j].bytes &&
                parts[i].at < parts[j].at + parts[j].bytes &&
                parts[j].at < parts[i].at + parts[i].bytes)
                return 0;
    }
    return 1;
}

/* Somewhere to point to where there is nothing. */
static inline void *warn_codes_at_(const void *at, size_t count, void *nothing) {
    return count ? (void *)(uintptr_t)at : nothing;
}

#ifdef __cplusplus
#define WARN_CODES_PART_(at, count, type) warn_codes_part_(at, count, sizeof(type), alignof(type))
#else
#define WARN_CODES_PART_(at, count, type) \
    warn_codes_part_(at, count, sizeof(type), _Alignof(type))
#endif

/* Reads a P-VTEC text: 48 bytes, from slash to slash (10-1703). Any other bytes are
   WARN_CODES_NOT_VTEC, and leave `out` as it was. */
static inline enum warn_codes_status warn_codes_read_vtec(const void *text, size_t length,
                                                          struct warn_codes_vtec *out) {
    struct warn_codes_part_ parts[] = {WARN_CODES_PART_(text, length, char),
                                       WARN_CODES_PART_(out, 1, struct warn_codes_vtec)};
    char nothing;
    if (!warn_codes_parts_fit_(parts, 1, 2))
        return WARN_CODES_BAD_ARGUMENT;
    return (enum warn_codes_status)warn_codes_c_read_vtec(warn_codes_at_(text, length, &nothing),
                                                          length, out);
}

/* Writes the one P-VTEC text of these fields into 48 bytes, without a NUL (10-1703).
   WARN_CODES_BAD_VALUE where no text has these fields: a class, an action or a significance that
   the Instruction does not have, an office of other characters than A to Z and 0 to 9, a
   phenomenon of other than capital letters, a number above 9999, or a time after 2099. */
static inline enum warn_codes_status warn_codes_write_vtec(const struct warn_codes_vtec *fields,
                                                           char *out) {
    struct warn_codes_part_ parts[] = {WARN_CODES_PART_(fields, 1, struct warn_codes_vtec),
                                       WARN_CODES_PART_(out, 48, char)};
    if (!warn_codes_parts_fit_(parts, 1, 2))
        return WARN_CODES_BAD_ARGUMENT;
    return (enum warn_codes_status)warn_codes_c_write_vtec(fields, out);
}

/* Reads an H-VTEC text: 54 bytes, from slash to slash (10-1703). Any other bytes are
   WARN_CODES_NOT_HVTEC, and leave `out` as it was. */
static inline enum warn_codes_status warn_codes_read_hvtec(const void *text, size_t length,
                                                           struct warn_codes_hvtec *out) {
    struct warn_codes_part_ parts[] = {WARN_CODES_PART_(text, length, char),
                                       WARN_CODES_PART_(out, 1, struct warn_codes_hvtec)};
    char nothing;
    if (!warn_codes_parts_fit_(parts, 1, 2))
        return WARN_CODES_BAD_ARGUMENT;
    return (enum warn_codes_status)warn_codes_c_read_hvtec(warn_codes_at_(text, length, &nothing),
                                                           length, out);
}

/* Writes the one H-VTEC text of these fields into 54 bytes, without a NUL (10-1703).
   WARN_CODES_BAD_VALUE where no text has these fields. */
static inline enum warn_codes_status warn_codes_write_hvtec(const struct warn_codes_hvtec *fields,
                                                            char *out) {
    struct warn_codes_part_ parts[] = {WARN_CODES_PART_(fields, 1, struct warn_codes_hvtec),
                                       WARN_CODES_PART_(out, 54, char)};
    if (!warn_codes_parts_fit_(parts, 1, 2))
        return WARN_CODES_BAD_ARGUMENT;
    return (enum warn_codes_status)warn_codes_c_write_hvtec(fields, out);
}

/* Reads the UGC text that bytes begin with (10-1702), and passes over what follows it. The zones
   come in order, each once, with the zones within runs such as 003>006. `out` is written unless
   memory lacks: with a fault it has the byte of the first one. */
static inline enum warn_codes_status warn_codes_read_ugc(const void *text, size_t length,
                                                         struct warn_codes_zone *zones,
                                                         size_t room,
                                                         struct warn_codes_ugc *out) {
    struct warn_codes_part_ parts[] = {WARN_CODES_PART_(text, length, char),
                                       WARN_CODES_PART_(zones, room, struct warn_codes_zone),
                                       WARN_CODES_PART_(out, 1, struct warn_codes_ugc)};
    char nothing;
    struct warn_codes_zone no_zone;
    if (!warn_codes_parts_fit_(parts, 1, 3))
        return WARN_CODES_BAD_ARGUMENT;
    return (enum warn_codes_status)warn_codes_c_read_ugc(
        warn_codes_at_(text, length, &nothing), length,
        (struct warn_codes_zone *)warn_codes_at_(zones, room, &no_zone), room, out);
}

/* Reads the frame of the first product of a text (10-1701). Its segments come in order; `zones`
   has the zones of the first, then of the second and so on, `lines` their P-VTEC lines alike, and
   each segment says how many are its own. Bytes before the first heading are passed over. The
   faults NO_HEADING, NO_IDENTIFIER, NO_ISSUE_TIME and ISSUE_DISAGREES are judged first, in this
   order; then the first that the lines have. `out` is written unless memory lacks. */
static inline enum warn_codes_status
warn_codes_read_frame(const void *text, size_t length, struct warn_codes_segment *segments,
                      size_t segment_room, struct warn_codes_zone *zones, size_t zone_room,
                      struct warn_codes_line *lines, size_t line_room,
                      struct warn_codes_frame *out) {
    struct warn_codes_part_ parts[] = {
        WARN_CODES_PART_(text, length, char),
        WARN_CODES_PART_(segments, segment_room, struct warn_codes_segment),
        WARN_CODES_PART_(zones, zone_room, struct warn_codes_zone),
        WARN_CODES_PART_(lines, line_room, struct warn_codes_line),
        WARN_CODES_PART_(out, 1, struct warn_codes_frame)};
    char nothing;
    struct warn_codes_segment no_segment;
    struct warn_codes_zone no_zone;
    struct warn_codes_line no_line;
    if (!warn_codes_parts_fit_(parts, 1, 5))
        return WARN_CODES_BAD_ARGUMENT;
    return (enum warn_codes_status)warn_codes_c_read_frame(
        warn_codes_at_(text, length, &nothing), length,
        (struct warn_codes_segment *)warn_codes_at_(segments, segment_room, &no_segment),
        segment_room, (struct warn_codes_zone *)warn_codes_at_(zones, zone_room, &no_zone),
        zone_room, (struct warn_codes_line *)warn_codes_at_(lines, line_room, &no_line),
        line_room, out);
}

/* Splits a text into its products: one for each heading line (10-1701), up to the next one or the
   end. Bytes before the first heading belong to none. `needed` becomes the count of products. */
static inline enum warn_codes_status warn_codes_split(const void *text, size_t length,
                                                      struct warn_codes_span *spans, size_t room,
                                                      size_t *needed) {
    struct warn_codes_part_ parts[] = {WARN_CODES_PART_(text, length, char),
                                       WARN_CODES_PART_(spans, room, struct warn_codes_span),
                                       WARN_CODES_PART_(needed, 1, size_t)};
    char nothing;
    struct warn_codes_span no_span;
    if (!warn_codes_parts_fit_(parts, 1, 3))
        return WARN_CODES_BAD_ARGUMENT;
    return (enum warn_codes_status)warn_codes_c_split(
        warn_codes_at_(text, length, &nothing), length,
        (struct warn_codes_span *)warn_codes_at_(spans, room, &no_span), room, needed);
}

/* Reads the products of an archive, in the order in which they stand, and answers a question
   about what they say of the events of an office and class (the rules of P-VTEC in 10-1703).
   Products that have a fault are passed over, and counted. `needed` becomes the count of rows.
   WARN_CODES_BAD_ARGUMENT too where question or class is none, the office has other characters
   than A to Z and 0 to 9, or a minute that counts lies after 2099. More than 4,294,967,295
   products are WARN_CODES_NO_MEMORY. */
static inline enum warn_codes_status warn_codes_ask(const void *archive, size_t length,
                                                    const struct warn_codes_asked *asked,
                                                    struct warn_codes_row *rows, size_t room,
                                                    size_t *needed) {
    struct warn_codes_part_ parts[] = {WARN_CODES_PART_(archive, length, char),
                                       WARN_CODES_PART_(asked, 1, struct warn_codes_asked),
                                       WARN_CODES_PART_(rows, room, struct warn_codes_row),
                                       WARN_CODES_PART_(needed, 1, size_t)};
    char nothing;
    struct warn_codes_row no_row;
    if (!warn_codes_parts_fit_(parts, 2, 4))
        return WARN_CODES_BAD_ARGUMENT;
    return (enum warn_codes_status)warn_codes_c_ask(
        warn_codes_at_(archive, length, &nothing), length, asked,
        (struct warn_codes_row *)warn_codes_at_(rows, room, &no_row), room, needed);
}

/* Opens a reader that is closed, for the products of an office, of which it follows one class (O,
   T, E or X). WARN_CODES_BAD_ARGUMENT where the reader is open, where the office has other
   characters than A to Z and 0 to 9, and where the class is none; the reader stays as it was. */
static inline enum warn_codes_status warn_codes_open(struct warn_codes_reader *reader,
                                                     const char office[4], char vtec_class) {
    struct warn_codes_part_ parts[] = {WARN_CODES_PART_(office, 4, char),
                                       WARN_CODES_PART_(reader, 1, struct warn_codes_reader)};
    if (!warn_codes_parts_fit_(parts, 1, 2))
        return WARN_CODES_BAD_ARGUMENT;
    return (enum warn_codes_status)warn_codes_c_open(reader, office, (uint8_t)vtec_class);
}

/* Takes the next bytes of a stream of products, in the order in which they were sent. A piece may
   end anywhere. A product has ended once the heading line of the next one is whole, or where
   warn_codes_end says so. WARN_CODES_BAD_ARGUMENT where the reader is closed.
   WARN_CODES_NO_MEMORY closes the reader, and frees what it held. */
static inline enum warn_codes_status warn_codes_take(struct warn_codes_reader *reader,
                                                     const void *piece, size_t length) {
    struct warn_codes_part_ parts[] = {WARN_CODES_PART_(piece, length, char),
                                       WARN_CODES_PART_(reader, 1, struct warn_codes_reader)};
    char nothing;
    if (!warn_codes_parts_fit_(parts, 1, 2))
        return WARN_CODES_BAD_ARGUMENT;
    return (enum warn_codes_status)warn_codes_c_take(
        reader, warn_codes_at_(piece, length, &nothing), length);
}

/* Says that what was taken is whole: its last product has ended. The next piece begins with
   another, as where each product comes by itself: warn_codes_take, then warn_codes_end.
   WARN_CODES_BAD_ARGUMENT where the reader is closed. WARN_CODES_NO_MEMORY closes the reader. */
static inline enum warn_codes_status warn_codes_end(struct warn_codes_reader *reader) {
    struct warn_codes_part_ parts[] = {WARN_CODES_PART_(reader, 1, struct warn_codes_reader)};
    if (!warn_codes_parts_fit_(parts, 0, 1))
        return WARN_CODES_BAD_ARGUMENT;
    return (enum warn_codes_status)warn_codes_c_end(reader);
}

/* Answers a question about the products that have ended, with the rows of warn_codes_ask. The
   minute counts for WARN_CODES_SHOWN and WARN_CODES_ALL. The reader stays as it was, whatever the
   status. WARN_CODES_BAD_ARGUMENT where it is closed, and where question or minute is none. */
static inline enum warn_codes_status warn_codes_tell(struct warn_codes_reader *reader,
                                                     enum warn_codes_question question,
                                                     uint32_t minute, struct warn_codes_row *rows,
                                                     size_t room, size_t *needed) {
    struct warn_codes_part_ parts[] = {WARN_CODES_PART_(reader, 1, struct warn_codes_reader),
                                       WARN_CODES_PART_(rows, room, struct warn_codes_row),
                                       WARN_CODES_PART_(needed, 1, size_t)};
    struct warn_codes_row no_row;
    if (!warn_codes_parts_fit_(parts, 0, 3))
        return WARN_CODES_BAD_ARGUMENT;
    return (enum warn_codes_status)warn_codes_c_tell(
        reader, (uint32_t)question, minute,
        (struct warn_codes_row *)warn_codes_at_(rows, room, &no_row), room, needed);
}

/* The same with room for the rows that malloc gives, and that the caller frees. With another
   status than WARN_CODES_OK `rows` becomes null and `count` 0. */
static inline enum warn_codes_status
warn_codes_tell_new(struct warn_codes_reader *reader, enum warn_codes_question question,
                    uint32_t minute, struct warn_codes_row **rows, size_t *count) {
    *rows = NULL;
    *count = 0;
    enum warn_codes_status status = warn_codes_tell(reader, question, minute, NULL, 0, count);
    if (status == WARN_CODES_TOO_SMALL) {
        *rows = (struct warn_codes_row *)malloc(*count * sizeof **rows);
        status = *rows == NULL ? WARN_CODES_NO_MEMORY
                               : warn_codes_tell(reader, question, minute, *rows, *count, count);
        if (status != WARN_CODES_OK) {
            free(*rows);
            *rows = NULL;
            *count = 0;
        }
    }
    return status;
}

/* Closes a reader, and frees what it holds. One that is closed stays closed. */
static inline enum warn_codes_status warn_codes_close(struct warn_codes_reader *reader) {
    struct warn_codes_part_ parts[] = {WARN_CODES_PART_(reader, 1, struct warn_codes_reader)};
    if (!warn_codes_parts_fit_(parts, 0, 1))
        return WARN_CODES_BAD_ARGUMENT;
    return (enum warn_codes_status)warn_codes_c_close(reader);
}

/* How many of the rows of WARN_CODES_LIVES make the first life: those of its event and zone. */
static inline size_t warn_codes_life_length(const struct warn_codes_row *rows, size_t count) {
    size_t length = 0;
    while (length < count && memcmp(&rows[length].event, &rows[0].event, 7) == 0 &&
           memcmp(&rows[length].zone, &rows[0].zone, 5) == 0)
        length++;
    return length;
}

/* The time of a stamp of twelve characters and a NUL, such as 180103T1530Z; of zeros it is
   WARN_CODES_NO_TIME. WARN_CODES_BAD_VALUE for any other text. */
static inline enum warn_codes_status warn_codes_time_of(const char *stamp, uint32_t *out) {
    struct warn_codes_vtec vtec;
    char text[] = "/O.NEW.KLWX.WS.W.0001.180103T1530Z-000000T0000Z/";
    if (stamp == NULL || out == NULL)
        return WARN_CODES_BAD_ARGUMENT;
    if (strlen(stamp) != 12)
        return WARN_CODES_BAD_VALUE;
    memcpy(text + 22, stamp, 12);
    if (warn_codes_read_vtec(text, 48, &vtec) != WARN_CODES_OK)
        return WARN_CODES_BAD_VALUE;
    *out = vtec.begin;
    return WARN_CODES_OK;
}

/* Writes count digits of a number, as 0001. */
static inline void warn_codes_digits_(unsigned number, int count, char *out) {
    while (count-- > 0) {
        out[count] = (char)('0' + number % 10);
        number /= 10;
    }
}

/* The texts below end with a NUL, and are returned. */

/* A time as 180103T1530Z; 000000T0000Z for WARN_CODES_NO_TIME and for what is no time. */
static inline char *warn_codes_time_text(uint32_t time, char out[13]) {
    char text[48];
    struct warn_codes_vtec vtec = {
        time, time, 1, {'W', 'S'}, {'K', 'L', 'W', 'X'}, {'N', 'E', 'W'}, 'O', 'W'};
    memcpy(out, "000000T0000Z", 13);
    if (warn_codes_write_vtec(&vtec, text) == WARN_CODES_OK)
        memcpy(out, text + 22, 12);
    return out;
}

/* An event as WS.W.0001.2018. */
static inline char *warn_codes_event_text(const struct warn_codes_event *event, char out[15]) {
    memcpy(out, event->phenomenon, 2);
    out[2] = out[4] = out[9] = '.';
    out[3] = event->significance;
    warn_codes_digits_(event->number, 4, out + 5);
    warn_codes_digits_(event->year, 4, out + 10);
    out[14] = 0;
    return out;
}

/* A zone as MDZ003. */
static inline char *warn_codes_zone_text(const struct warn_codes_zone *zone, char out[7]) {
    memcpy(out, zone->state, 2);
    out[2] = zone->kind;
    warn_codes_digits_(zone->number, 3, out + 3);
    out[6] = 0;
    return out;
}

/* The event and the zone of a row, as WS.W.0001.2018 MDZ003. */
static inline char *warn_codes_life_text(const struct warn_codes_row *row, char out[22]) {
    warn_codes_event_text(&row->event, out);
    out[14] = ' ';
    warn_codes_zone_text(&row->zone, out + 15);
    return out;
}

/* The lawful line of a row, as NEW@180103T1530Z. */
static inline char *warn_codes_step_text(const struct warn_codes_row *row, char out[17]) {
    memcpy(out, row->action, 3);
    out[3] = '@';
    warn_codes_time_text(row->issue, out + 4);
    return out;
}

#ifdef __cplusplus
}
#endif

#endif
