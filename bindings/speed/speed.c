/* Reads a P-VTEC text COUNT times, by the library or by a plain reader: speed library|plain COUNT
 */
#include <stdio.h>
#include <stdlib.h>
#include <string.h>
#include <time.h>

#include "../c/warn_codes.h"

static const char TEXT[] = "/O.NEW.KLWX.WS.W.0001.180103T1530Z-180104T0000Z/";

static int plain_time(const char *text, time_t *out) {
    struct tm tm = {0};
    int used = 0;
    if (sscanf(text, "%2d%2d%2dT%2d%2dZ%n", &tm.tm_year, &tm.tm_mon, &tm.tm_mday, &tm.tm_hour,
               &tm.tm_min, &used) != 5 ||
        used != 12)
        return 0;
    tm.tm_year += 100;
    tm.tm_mon -= 1;
    *out = timegm(&tm);
    return 1;
}

/* Takes much that is no P-VTEC text, as plain readers do: it looks up no action and no day of a
 * month. */
static int plain_read(const char *text, time_t *begin, time_t *end, int *number) {
    char class, action[4], office[5], phenomenon[3], significance, first[14], last[14];
    if (sscanf(text, "/%c.%3[A-Z].%4[A-Z0-9].%2[A-Z].%c.%4d.%13[0-9TZ]-%13[0-9TZ]/", &class,
               action, office, phenomenon, &significance, number, first, last) != 8)
        return 0;
    return plain_time(first, begin) && plain_time(last, end);
}

int main(int words, char **word) {
    if (words != 3)
        return 2;
    long count = atol(word[2]), sum = 0;
    for (long i = 0; i < count; i++) {
        struct warn_codes_vtec v;
        time_t begin = 0, end = 0;
        int number = 0;
        if (word[1][0] == 'l')
            sum += warn_codes_read_vtec(TEXT, 48, &v) == WARN_CODES_OK ? v.number : 0;
        else
            sum += plain_read(TEXT, &begin, &end, &number) ? number : 0;
    }
    return sum == count ? 0 : 1;
}
