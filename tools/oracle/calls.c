/* calls FILE: reads each line of a file as a sheet through a C call, all in one process, and writes as the program `hours` does:
 * four numbers (number, place, records, warnings), then each record's 16 words. A sheet has any bytes but 10; the last line may lack its end. */
#include <inttypes.h>
#include <stdio.h>
#include <stdlib.h>
#include <string.h>

#include "lorukinde.h"

enum { RECORDS = 512, WORDS = 16 };

static int32_t word(const uint8_t *b)
{
    return (int32_t)((uint32_t)b[0] | (uint32_t)b[1] << 8 | (uint32_t)b[2] << 16 | (uint32_t)b[3] << 24);
}

static void read_line(const uint8_t *sheet, size_t length)
{
    static uint8_t table[RECORDS * LORUKINDE_RECORD_BYTES];
    uint32_t place, records, warnings;
    uint32_t number = lorukinde_read_sheet(sheet, length, table, sizeof table, &place, &records, &warnings);
    printf("%" PRIu32 " %" PRIu32 " %" PRIu32 " %" PRIu32 "\n", number, place, records, warnings);
    for (size_t i = 0; i < (size_t)records * WORDS; i++)
        printf("%" PRId32 "%c", word(table + 4 * i), i % WORDS == WORDS - 1 ? '\n' : ' ');
}

int main(int argc, char **argv)
{
    FILE *f = argc == 2 ? fopen(argv[1], "rb") : NULL;
    if (!f || fseek(f, 0, SEEK_END)) {
        fprintf(stderr, "calls FILE: the file cannot be read\n");
        return 2;
    }
    size_t length = (size_t)ftell(f);
    rewind(f);
    uint8_t *bytes = malloc(length + 1);
    if (!bytes || fread(bytes, 1, length, f) != length)
        return 2;
    for (size_t i = 0; i < length;) {
        const uint8_t *end = memchr(bytes + i, '\n', length - i);
        size_t n = end ? (size_t)(end - (bytes + i)) : length - i;
        read_line(bytes + i, n);
        i += n + 1;
    }
    return fflush(stdout) || ferror(stdout) ? 2 : 0;
}
