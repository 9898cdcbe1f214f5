/* bench FILE ROUNDS [READING]: reads each sheet of a file, one a line, ROUNDS times through a C call with a table that holds every sheet. READING is
 * `parts`, part by part; `edition-2`; `house`; or `feed`, the whole file at once. The last three are not there with PLAIN_C, for a reader that has none of
 * them. Writes how many readings were accepted, of a feed how many lines it has. The work between two calls is a few instructions, which are counted too. */
#include <stdio.h>
#include <stdlib.h>
#include <string.h>

#include "lorukinde.h"

enum { SHEETS = 1024, RECORDS = 2740 };

static uint8_t bytes[1 << 20], table[RECORDS * LORUKINDE_RECORD_BYTES];
static const uint8_t *sheets[SHEETS];
static size_t lengths[SHEETS];

static unsigned long read_parts(const uint8_t *sheet, size_t length)
{
    uint32_t place, records, warnings, next = 0, last;
    unsigned long accepted = 0;
    do
        accepted += lorukinde_read_part(sheet, length, next, table, sizeof table, &place, &records, &warnings, &next, &last) == 0;
    while (!last);
    return accepted;
}

#ifndef PLAIN_C
static unsigned long read_feed(size_t length)
{
    static uint8_t answers[SHEETS * LORUKINDE_ANSWER_BYTES];
    size_t lines, records;
    lorukinde_read_feed(bytes, length, answers, sizeof answers, table, sizeof table, &lines, &records);
    return lines;
}

/* a sheet by another reading than edition 1's of the whole */
static unsigned long read_so(const char *reading, const uint8_t *sheet, size_t length)
{
    uint32_t place, records, warnings;
    if (!strcmp(reading, "edition-2"))
        return lorukinde_read_sheet_in(2, sheet, length, table, sizeof table, &place, &records, &warnings) == 0;
    if (!strcmp(reading, "house"))
        return lorukinde_read_house_sheet(sheet, length, table, sizeof table, &place, &records, &warnings) == 0;
    return read_parts(sheet, length);
}
#else
static unsigned long read_feed(size_t length)
{
    (void)length;
    return 0;
}

static unsigned long read_so(const char *reading, const uint8_t *sheet, size_t length)
{
    (void)reading;
    return read_parts(sheet, length);
}
#endif

int main(int argc, char **argv)
{
    FILE *f = argc >= 3 ? fopen(argv[1], "rb") : NULL;
    if (!f) {
        fprintf(stderr, "bench FILE ROUNDS [parts | edition-2 | house | feed]\n");
        return 2;
    }
    size_t length = fread(bytes, 1, sizeof bytes, f), n = 0;
    for (size_t i = 0; i < length && n < SHEETS; i += lengths[n++] + 1) {
        const uint8_t *end = memchr(bytes + i, '\n', length - i);
        sheets[n] = bytes + i;
        lengths[n] = end ? (size_t)(end - sheets[n]) : length - i;
    }
    unsigned long accepted = 0;
    uint32_t place, records, warnings;
    int feed = argc > 3 && !strcmp(argv[3], "feed");
    for (long rounds = atol(argv[2]); rounds > 0; rounds--)
        for (size_t i = 0; i < (feed ? 1 : n); i++)
            if (feed)
                accepted += read_feed(length);
            else if (argc > 3)
                accepted += read_so(argv[3], sheets[i], lengths[i]);
            else
                accepted += lorukinde_read_sheet(sheets[i], lengths[i], table, sizeof table, &place, &records, &warnings) == 0;
    printf("%lu\n", accepted);
    return 0;
}
