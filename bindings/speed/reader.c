/* Reads COUNT products of ten zones each, of which each opens an event, and asks for lines in breach:
   reader once COUNT: a reader takes all of them, and is asked at the end;
   reader each COUNT: a reader takes them one by one, and is asked after each;
   reader whole COUNT: warn_codes_ask, of all of them at the end;
   reader again COUNT: warn_codes_ask, after each of those so far. */
#include <stdio.h>
#include <stdlib.h>
#include <string.h>

#include "../c/warn_codes.h"

static const uint32_t START = 9471780; /* 2018-01-03T15:00Z */

static int put_product(char *text, size_t room, unsigned number) {
    char time[13], end[13];
    uint32_t minute = START + number % 60;
    warn_codes_time_text(minute, time);
    warn_codes_time_text(minute + 240, end);
    return snprintf(text, room,
                    "WWUS41 KLWX 03%.4s\nWSWLWX\n\n%u%.2s AM EST Wed Jan 3 2018\n\n"
                    "MDZ003>012-032330-\n/O.NEW.KLWX.WS.W.%04u.%s-%s/\n* WHAT...Snow.\n\n$$\n\n",
                    time + 7, 10 + (minute - START) / 60, time + 9, number + 1, time, end);
}

static size_t breaches_by(struct warn_codes_reader *reader) {
    struct warn_codes_row *rows;
    size_t count;
    if (warn_codes_tell_new(reader, WARN_CODES_BREACHES, 0, &rows, &count))
        exit(1);
    free(rows);
    return count;
}

static size_t breaches_in(const char *text, size_t length) {
    struct warn_codes_asked asked = {WARN_CODES_BREACHES, 0, "KLWX", 'O'};
    size_t count, room = length / 16 + 16;
    struct warn_codes_row *rows = malloc(room * sizeof *rows);
    if (!rows || warn_codes_ask(text, length, &asked, rows, room, &count))
        exit(1);
    free(rows);
    return count;
}

int main(int words, char **word) {
    if (words != 3)
        return 2;
    struct warn_codes_reader reader = {0};
    size_t count = strtoul(word[2], NULL, 10), length = 0, rows = 0;
    char *text = malloc(count * 256 + 1);
    if (text == NULL || warn_codes_open(&reader, "KLWX", 'O'))
        return 1;
    int reads = word[1][0] == 'o' || word[1][0] == 'e', each = word[1][0] == 'e' || word[1][0] == 'a';
    for (size_t i = 0; i < count; i++) {
        size_t more = (size_t)put_product(text + length, 256, (unsigned)i);
        if (reads && (warn_codes_take(&reader, text + length, more) || warn_codes_end(&reader)))
            return 1;
        length += more;
        if (each || i + 1 == count)
            rows = reads ? breaches_by(&reader) : breaches_in(text, length);
    }
    printf("%zu rows of %zu bytes\n", rows, length);
    free(text);
    return warn_codes_close(&reader) != WARN_CODES_OK;
}
