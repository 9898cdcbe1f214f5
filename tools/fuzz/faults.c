/* Faults planted round the calls, to show that the fuzzer finds them: FAULT=1 to 103 in the environment, 0 for none. Linked with
 * -Wl,--wrap for each call (run.sh), so the library itself stays as it is. */
#include <stdlib.h>
#include <string.h>

#include "lorukinde.h"

uint32_t __real_lorukinde_read_sheet(const uint8_t *, size_t, uint8_t *, size_t, uint32_t *, uint32_t *, uint32_t *);
uint32_t __real_lorukinde_read_part(const uint8_t *, size_t, size_t, uint8_t *, size_t, uint32_t *, uint32_t *, uint32_t *, uint32_t *, uint32_t *);
uint32_t __real_lorukinde_read_sheet_in(uint32_t, const uint8_t *, size_t, uint8_t *, size_t, uint32_t *, uint32_t *, uint32_t *);
uint32_t __real_lorukinde_read_part_in(uint32_t, const uint8_t *, size_t, size_t, uint8_t *, size_t, uint32_t *, uint32_t *, uint32_t *, uint32_t *, uint32_t *);
uint32_t __real_lorukinde_read_house_sheet(const uint8_t *, size_t, uint8_t *, size_t, uint32_t *, uint32_t *, uint32_t *);
uint32_t __real_lorukinde_read_house_part(const uint8_t *, size_t, size_t, uint8_t *, size_t, uint32_t *, uint32_t *, uint32_t *, uint32_t *, uint32_t *);
uint32_t __real_lorukinde_read_feed(const uint8_t *, size_t, uint8_t *, size_t, uint8_t *, size_t, size_t *, size_t *);
uint32_t __real_lorukinde_note(size_t, size_t, int32_t, int32_t, size_t *, size_t *);

static int fault(void)
{
    static int n = -1;
    return n >= 0 ? n : (n = atoi(getenv("FAULT")));
}

static volatile uint8_t seen;

/* seven faults, from `first` on: steps over the ends of a text, a table and a number, and a write to the text */
static void step_outside(int first, const uint8_t *text, size_t n, uint8_t *table, size_t bytes, void *stored, size_t stored_bytes)
{
    uint8_t *number = stored;
    switch (fault() - first) {
    case 0: seen = text[n]; break;
    case 1: seen = text[-1]; break;
    case 2: if (n) *(volatile uint8_t *)(text + n / 2) = text[n / 2]; break;
    case 3: table[bytes] ^= 1; break;
    case 4: table[-1] ^= 1; break;
    case 5: number[stored_bytes] ^= 1; break;
    case 6: number[-1] ^= 1; break;
    }
}

uint32_t __wrap_lorukinde_read_sheet(const uint8_t *sheet, size_t n, uint8_t *table, size_t bytes, uint32_t *place, uint32_t *records, uint32_t *warnings)
{
    uint8_t before[4] = {0};
    if (bytes >= 64)
        memcpy(before, table + 60, 4);
    uint32_t number = __real_lorukinde_read_sheet(sheet, n, table, bytes, place, records, warnings);
    size_t used = 64 * (size_t)*records;
    switch (fault()) {
    case 1: seen = sheet[n]; break;                                       /* a byte after the sheet is read */
    case 2: seen = sheet[-1]; break;                                      /* one before it */
    case 3: table[bytes] ^= 1; break;                                     /* a byte after the table is written */
    case 4: table[-1] ^= 1; break;                                        /* one before it */
    case 5: if (n) *(volatile uint8_t *)(sheet + n / 2) = sheet[n / 2]; break; /* the sheet is written to */
    case 6: if (used < bytes) table[used] ^= 1; break;                    /* a byte after the records is changed */
    case 7: if (number == 3 && bytes) table[bytes - 1] ^= 128; break;     /* a refusal changes the table */
    case 8: if (number == 10 && bytes) table[0] ^= 1; break;              /* so does one for want of room */
    case 9: if (used) memcpy(table + 60, before, 4); break;               /* a record's last word is not written */
    case 10: *records += number == 0; break;                              /* a record too many is said */
    case 11: *place += number == 4 && *place > 0; break;                  /* a refusal's place is moved */
    case 12: *warnings = 0; break;                                        /* no warning is counted */
    case 13: if (number == 0 && used == bytes / 64 * 64) number = 10, *records = 0; break; /* the last record of the room is not used */
    case 14: place[1] = 0; break;                                         /* 64 bits are stored for 32 */
    case 15: if (used) table[20]++; break;                                /* a head counts an item too many */
    case 29: if (number == LORUKINDE_EMPTY_RULE) number = LORUKINDE_NO_SHAPE; break;
    case 30: if (number == LORUKINDE_BROKEN_QUOTE) number = LORUKINDE_NO_SHAPE; break;
    case 31: *place -= number == LORUKINDE_NO_SHAPE && *place > 0 && sheet[*place - 1] == ' '; break; /* a blank is not passed */
    case 32: *place -= number == LORUKINDE_WEEKS_INVERTED ? 5 : 0; break; /* the place of `week` for its number's */
    case 33: *place += number == LORUKINDE_ILL_FORMED_COMMENT; break;     /* the place inside the quotes */
    case 34: if (number == LORUKINDE_ILL_FORMED_COMMENT) number = LORUKINDE_NO_SHAPE; break;
    case 35: if (used > 128 && table[128] != 1) memcpy(table + 188, table + 124, 4); break; /* an item has the place of the one before it */
    }
    return number;
}

uint32_t __wrap_lorukinde_read_part(const uint8_t *sheet, size_t n, size_t begin, uint8_t *table, size_t bytes, uint32_t *place, uint32_t *records, uint32_t *warnings, uint32_t *next, uint32_t *last)
{
    uint32_t number = __real_lorukinde_read_part(sheet, n, fault() == 16 ? 0 : begin, table, bytes, place, records, warnings, next, last); /* the first part for all */
    size_t used = 64 * (size_t)*records;
    switch (fault()) {
    case 17: *next += !*last && *next < n; break;                         /* the next part's place is moved */
    case 18: *last = 1; break;                                            /* every part is the last */
    case 19: if (number == 2) *last = 0; break;
    case 20: if (number >= 3) *place -= (uint32_t)begin; break;           /* places are the part's, not the sheet's */
    case 21: if (used && table[16] && begin) table[12]--; break;          /* a later part's comment starts at its quote */
    case 22: if (number == 0 && used == 64 && begin) number = 3, *place = (uint32_t)begin, *records = *warnings = 0; break;
    case 23: if (used < bytes && number == 2) table[used] ^= 1; break;    /* a refused place changes the table */
    case 24: last[1] = 0; break;
    case 36: if (used && table[60] >= begin) table[60] -= (uint8_t)begin; break; /* a head's place is the part's, not the sheet's */
    case 37: if (used > 64 && table[124] < 255) table[124]++; break;      /* an item's place is its second byte */
    }
    step_outside(60, sheet, n, table, bytes, next, sizeof *next);
    return number;
}

uint32_t __wrap_lorukinde_read_sheet_in(uint32_t edition, const uint8_t *sheet, size_t n, uint8_t *table, size_t bytes, uint32_t *place, uint32_t *records, uint32_t *warnings)
{
    switch (fault()) {
    case 47: edition = edition == 3 ? 2 : edition; break;                 /* an edition that there is not, taken as 2 */
    case 48: edition += edition == 0; break;                              /* no edition is taken as 1 */
    case 49: edition = 2; break;                                          /* edition 2 in force for edition 1 */
    case 50: edition &= 255; break;                                       /* only a byte of the edition is looked at */
    }
    uint32_t number = __real_lorukinde_read_sheet_in(edition, sheet, n, table, bytes, place, records, warnings);
    switch (fault()) {
    case 51: if (*records > 1 && table[64] == 8 && !memcmp(table + 68, table + 76, 8)) table[92] = 1; break; /* a span written out becomes a point */
    case 52: if (*records > 1 && table[64] == 6 && table[68] != table[72]) memset(table + 76, 0, 4); break; /* a day offset after a range is lost */
    case 53: if (number == 19 && n > LORUKINDE_SHEET_BYTES) number = 1; break; /* 1 before 19 */
    }
    step_outside(67, sheet, n, table, bytes, records, sizeof *records);
    return number;
}

uint32_t __wrap_lorukinde_read_part_in(uint32_t edition, const uint8_t *sheet, size_t n, size_t begin, uint8_t *table, size_t bytes, uint32_t *place, uint32_t *records, uint32_t *warnings, uint32_t *next, uint32_t *last)
{
    uint32_t number = __real_lorukinde_read_part_in(edition, sheet, n, begin, table, bytes, place, records, warnings, next, last);
    switch (fault()) {
    case 54: if (number == 19) *last = 0; break;
    }
    step_outside(74, sheet, n, table, bytes, warnings, sizeof *warnings);
    return number;
}

uint32_t __wrap_lorukinde_read_house_sheet(const uint8_t *sheet, size_t n, uint8_t *table, size_t bytes, uint32_t *place, uint32_t *records, uint32_t *warnings)
{
    if (fault() == 55)
        return __real_lorukinde_read_sheet(sheet, n, table, bytes, place, records, warnings); /* no profile at all */
    uint32_t number = __real_lorukinde_read_house_sheet(sheet, n, table, bytes, place, records, warnings);
    switch (fault()) {
    case 56: if (number == 22) number = 23; break;
    case 57: if (number == 23) number = 22; break;
    case 58: *place -= number == 22 && *place > 1 && sheet[*place - 1] != ','; break; /* the byte before the rule or the item */
    }
    step_outside(81, sheet, n, table, bytes, warnings, sizeof *warnings);
    return number;
}

uint32_t __wrap_lorukinde_read_house_part(const uint8_t *sheet, size_t n, size_t begin, uint8_t *table, size_t bytes, uint32_t *place, uint32_t *records, uint32_t *warnings, uint32_t *next, uint32_t *last)
{
    uint32_t number = __real_lorukinde_read_house_part(sheet, n, begin, table, bytes, place, records, warnings, next, last);
    switch (fault()) {
    case 59: if (number == 22) *place -= (uint32_t)begin; break;          /* places are the part's, not the sheet's */
    }
    step_outside(88, sheet, n, table, bytes, place, sizeof *place);
    return number;
}

uint32_t __wrap_lorukinde_read_feed(const uint8_t *feed, size_t n, uint8_t *answers, size_t answer_bytes, uint8_t *table, size_t bytes, size_t *lines, size_t *records)
{
    if (fault() == 38 && n && feed[n - 1] == '\n')
        n--;                                                              /* an empty line at the end is not read */
    if (fault() == 39)
        bytes -= bytes < 64 ? 0 : bytes / 64 % 2 * 64;                    /* not all of the room is used */
    uint32_t number = __real_lorukinde_read_feed(feed, n, answers, answer_bytes, table, bytes, lines, records);
    step_outside(95, feed, n, table, bytes, records, sizeof *records);
    uint8_t *second = answers + 16;
    switch (fault()) {
    case 40: *records += number == 0 && *lines > 0; break;
    case 41: if (answer_bytes > 16 * *lines) answers[16 * *lines] ^= 1; break; /* a byte after the answers is changed */
    case 42: if (number == 14 && answer_bytes) answers[0] ^= 1; break;    /* answers are written before 14 is known */
    case 43: if (bytes > 64 * *records) table[64 * *records] ^= 1; break; /* a byte after the records is changed */
    case 44: if (*lines > 1 && second[0] == 3) second[4]++; break;        /* a later line's place is moved */
    case 45: if (*lines > 2 && second[0] == 10) *lines = 2; break;        /* a line that does not fit ends the feed */
    case 46: lines[1] = 0; break;
    case 102: answers[answer_bytes] ^= 1; break;                          /* a byte after the answers' table is written */
    case 103: answers[-1] ^= 1; break;                                    /* one before it */
    }
    return number;
}

uint32_t __wrap_lorukinde_note(size_t sheet_len, size_t note_len, int32_t start, int32_t length, size_t *from, size_t *to)
{
    uint32_t which = __real_lorukinde_note(sheet_len, note_len, start, length, from, to);
    switch (fault()) {
    case 25: *to += which == 1; break;                                    /* the note's end is moved */
    case 26: if (length < 0) *to = note_len; break;                       /* the standing note for numbers outside the sheet */
    case 27: if (which == 0 && length == 0) *to = 0; break;               /* no standing note */
    case 28: from[1] = 0; break;
    }
    return which;
}
