/* Prints the lives that the products of a file tell of an office's events:
   example FILE OFFICE CLASS, as in example samples/archive.txt KLWX O */
#include <stdio.h>
#include <stdlib.h>
#include <string.h>

#include "warn_codes.h"

int main(int words, char **word) {
    struct warn_codes_reader reader = {0};
    FILE *file = words == 4 && strlen(word[2]) == 4 ? fopen(word[1], "rb") : NULL;
    if (file == NULL || warn_codes_open(&reader, word[2], word[3][0]) != WARN_CODES_OK)
        return 2;

    char piece[65536], text[22];
    size_t length, count;
    while ((length = fread(piece, 1, sizeof piece, file)) > 0)
        if (warn_codes_take(&reader, piece, length) != WARN_CODES_OK)
            return 1;
    if (ferror(file) || warn_codes_end(&reader) != WARN_CODES_OK)
        return 1;

    struct warn_codes_row *rows;
    if (warn_codes_tell_new(&reader, WARN_CODES_LIVES, 0, &rows, &count) != WARN_CODES_OK)
        return 1;
    for (size_t at = 0; at < count; at += length) {
        length = warn_codes_life_length(rows + at, count - at);
        printf("life %s", warn_codes_life_text(rows + at, text));
        for (size_t i = at; i < at + length; i++)
            printf(" %s", warn_codes_step_text(rows + i, text));
        printf("\n");
    }
    free(rows);
    fclose(file);
    return warn_codes_close(&reader) == WARN_CODES_OK ? 0 : 1;
}
