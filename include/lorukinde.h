/* Lorukinde: opening hours sheets read into records, and the parts of a sheet read alone. */
#ifndef LORUKINDE_H
#define LORUKINDE_H

#include <stddef.h>
#include <stdint.h>

#define LORUKINDE_VERSION "0.1.0"

#ifdef __cplusplus
extern "C" {
#endif

/* Of each call the caller keeps this: no pointer is null, not even one with the length 0; each points to so many bytes, or
 * to one number, that are initialised; what a call writes to (tables, and each number) overlaps nothing else that it is given.
 * A call keeps no pointer, allocates nothing, and changes nothing else. It answers for any bytes and any numbers.
 * A reading takes about 4 kilobytes of stack. */

/* A record is 64 bytes of the table: 16 words of 32 bits, signed (two's complement), each little-endian. A rule's head comes
 * first, then its items in reading order. Unused words are 0.
 *
 *   word 0      from word 1 on
 *   1 head      separator before the rule (0 `;`, and for the first rule; 1 `,`; 2 `||`); 0 open, 1 closed, 2 unknown;
 *               the comment's start and its length in bytes, 0 and 0 without one; number of items
 *   2 years     first, last, step
 *   3 months    year or 0, first, last
 *   4 dates     form (1 fixed, 2 weekday, 3 easter), year or 0, month, day or weekday, n signed, weekday offset, day offset;
 *               the same seven for the end
 *   5 weeks     first, last, step
 *   6 weekdays  first, last (Mo 1 to Su 7), day offset, flags from the start, flags from the end; bit n-1 for n
 *   7 holidays  1 public, 2 school; day offset
 *   8 times     start kind, start, end kind, end, repeat in minutes or -1, open end 0 or 1, a time alone 0 or 1 (1 in edition 2
 *               only: its end is its start)
 *
 * A weekday offset is 0, 1 to 7 the next such day, -1 to -7 the previous. A time's kind is 0, a clock time in minutes, or 1 dawn,
 * 2 sunrise, 3 sunset, 4 dusk with an offset in minutes. A comment is well-formed UTF-8; its start is inside the quote.
 *
 * Word 15, the last, is the item's place, that of its first byte: its year's if it has one, a week's number's (not `week`'s), the
 * bracket of a time in brackets; for a head the rule's place, where the rule begins after the blanks before it. Places and a
 * comment's start count bytes from the sheet's first, which is 0.
 *
 * Warnings are counted: one for each weekday or month name that is not one capital and then small letters, and one for each event,
 * modifier or `easter` that is not all small. Only an accepted text has any. */
#define LORUKINDE_RECORD_BYTES 64
#define LORUKINDE_SHEET_BYTES 4096

/* What a reading returns: when; and the place that it stores. An item's place and a rule's are said above, at word 15.
 * Reading could not go on at the first byte after what was completed last in that rule, and its blanks. Completed are an item, a
 * comma that a list has taken, a colon directly after a wide part, `week`, `24/7`, a modifier word, a comment. Where nothing is
 * completed it is the rule's place. It may be the text's length.
 * Which refusal: 19, then 1, then 2, then the leftmost rule's, in it the earliest item's; in one item 4 before 5 before the others;
 * then 22 and 23, the leftmost first and at one place 22; 10 last. 15 and 16 are a tally's, below; 16, 20, 21 and 24 are of the calls
 * that are asked of a table, below; 17 and 18 are not used. */
enum {
    LORUKINDE_ACCEPTED = 0,            /* accepted; 0 */
    LORUKINDE_TOO_LONG = 1,            /* over 4,096 bytes; 0 */
    LORUKINDE_NO_PART = 2,             /* no part begins at the place given; 0 */
    LORUKINDE_NO_SHAPE = 3,            /* no shape fits, and neither 11 nor 12 is the case; where reading could not go on */
    LORUKINDE_RANGE = 4,               /* a number out of range; the item's place */
    LORUKINDE_WEEK_STEP = 5,           /* a week step above 255; the item's place */
    LORUKINDE_YEARS_INVERTED = 6,      /* years that run backwards; the item's place */
    LORUKINDE_WEEKS_INVERTED = 7,      /* weeks that run backwards; the item's place */
    LORUKINDE_POINT_IN_TIME = 8,       /* a time alone, in edition 1; the item's place */
    LORUKINDE_EASTER_DAY = 9,          /* a bare day after easter; the item's place */
    LORUKINDE_NO_ROOM = 10,            /* all else good, but more records than whole 64 bytes in the table; the text's first byte */
    LORUKINDE_EMPTY_RULE = 11,         /* an empty rule: blanks alone up to a separator or the text's end; the rule's place */
    LORUKINDE_BROKEN_QUOTE = 12,       /* a quote, and the next byte is one too or no later one stands in the text; where
                                          reading could not go on */
    LORUKINDE_ILL_FORMED_COMMENT = 13, /* a comment that is not well-formed UTF-8 (RFC 3629); its first quote */
    LORUKINDE_NO_ANSWER_ROOM = 14,     /* a feed with more lines than whole 16 bytes in the answer table; no place is stored */
    LORUKINDE_COUNT_FULL = 15,         /* a tally: a count would pass 4,294,967,295 */
    LORUKINDE_NO_FIT = 16,             /* a tally: an answer and its records that do not fit, or a tally of another length; a
                                          call that is asked of a table: the table's records do not fit */
    LORUKINDE_UNKNOWN_EDITION = 19,    /* an edition that is neither 1 nor 2, of the calls that take one; 0 */
    LORUKINDE_HOUSE_FORM = 22,         /* house: a form that it does not allow; the item's place, for a separator the place of the
                                          rule that follows it */
    LORUKINDE_HOUSE_ORDER = 23,        /* house: a span that ends not after its start, or starts before an earlier one of its rule
                                          ends; the span's place */
    /* of the calls that are asked of a table, and of no reading */
    LORUKINDE_NO_DAYS = 20,            /* an impossible day, bytes left over after the days, or no such rule */
    LORUKINDE_SHORT_LIST = 21,         /* a list with fewer entries than there are rules */
    LORUKINDE_FEW_ANSWERS = 24         /* room for fewer answers than days */
};

/* Reads a sheet. The number is returned; place, records and warnings are stored.
 * The numbers are those of the reading of the sheet with a table of table_len / 64 records. The table afterwards is the table
 * before with the records written over it from its first byte on, 64 bytes each: every other byte is unchanged.
 * Every refusal (1, 3 to 13) gives 0 records and 0 warnings and changes no byte of the table. It reads by edition 1. */
uint32_t lorukinde_read_sheet(const uint8_t *sheet, size_t sheet_len, uint8_t *table, size_t table_len, uint32_t *place,
                              uint32_t *records, uint32_t *warnings);

/* Reads the part of the sheet that begins at the place begin. The number is returned; place, records and warnings are stored,
 * the next part's place in next, and in last 1 if this was the last part (then next is 0), else 0.
 * A quote flips inside and outside; a part ends at a `;` outside, and the next begins directly after it; the first begins at 0.
 * Each part has the whole table.
 * The numbers are those of the reading of that part with a table of table_len / 64 records, places counted from the sheet's first
 * byte. The table afterwards is as for a sheet.
 * Every refusal (1 to 13) gives 0 records and 0 warnings and changes no byte of the table; 1 and 2 give next 0 and last 1, the
 * others the true next. */
uint32_t lorukinde_read_part(const uint8_t *sheet, size_t sheet_len, size_t begin, uint8_t *table, size_t table_len,
                             uint32_t *place, uint32_t *records, uint32_t *warnings, uint32_t *next, uint32_t *last);

/* The same by an edition of the rules, 1 or 2; the calls without one, and the feed, read by edition 1. Edition 2 accepts besides a
 * time alone (`10:00`), marks after a range of weekdays (`Mo-Fr[1]`), and a day offset after any weekday item (`Mo +1 day`), and
 * never returns 8. What edition 1 accepts, edition 2 accepts with the same records and warnings. Another edition is refused 19,
 * before 1 and before 2, with place 0, 0 records, 0 warnings, next 0 and last 1, and changes no byte of the table. */
uint32_t lorukinde_read_sheet_in(uint32_t edition, const uint8_t *sheet, size_t sheet_len, uint8_t *table, size_t table_len,
                                 uint32_t *place, uint32_t *records, uint32_t *warnings);
uint32_t lorukinde_read_part_in(uint32_t edition, const uint8_t *sheet, size_t sheet_len, size_t begin, uint8_t *table,
                                size_t table_len, uint32_t *place, uint32_t *records, uint32_t *warnings, uint32_t *next,
                                uint32_t *last);

/* The same for house sheets: edition 1, with the same numbers and records, refusing besides
 *   22: a rule after `,` or `||`; a time that is a sun event or after 24:00; a repeat, also of 0; an open end;
 *   23: a span that ends not after its start, or that starts before an earlier span of its rule ends (touching is allowed).
 * Both are judged when the whole text is read, so after all of edition 1's refusals but 10; of several the leftmost is said, and at
 * one place 22 before 23. Each part is judged alone. */
uint32_t lorukinde_read_house_sheet(const uint8_t *sheet, size_t sheet_len, uint8_t *table, size_t table_len, uint32_t *place,
                                    uint32_t *records, uint32_t *warnings);
uint32_t lorukinde_read_house_part(const uint8_t *sheet, size_t sheet_len, size_t begin, uint8_t *table, size_t table_len,
                                   uint32_t *place, uint32_t *records, uint32_t *warnings, uint32_t *next, uint32_t *last);

/* Reads a feed: many sheets, one a line. Byte 10 alone parts lines, inside quotes too. A final byte 10 starts no line; an empty
 * feed has none. The number is returned, 0 or 14; how many lines it has and how many records were written is stored.
 * Each line has an answer, 16 bytes of the answer table: number, place, records, warnings, four words as a record's are. The
 * answers follow each other, and so do the lines' records in the table. Each line's answer and records are those of
 * lorukinde_read_sheet on the line with the room that the lines before it left, places counted from the line's first byte; a line
 * that does not fit answers 10, uses no room, and the next is tried. The feed has no limit of its own: a line of over 4,096 bytes
 * answers 1.
 * 14 is seen before any line is read, gives 0 lines and 0 records and changes no byte of the tables; otherwise every byte after the
 * answers and after the records is unchanged. */
#define LORUKINDE_ANSWER_BYTES 16
uint32_t lorukinde_read_feed(const uint8_t *feed, size_t feed_len, uint8_t *answers, size_t answers_len, uint8_t *table,
                             size_t table_len, size_t *lines, size_t *records);

/* A tally: figures over many sheets, 34 counts of 32 bits, unsigned, little-endian. Word n, 0 to 23: answers with the number n.
 * 24: answers taken in. 25: warnings. 24 + k: items of kind k, 2 to 8. 33: marks, the ones in the two masks of each weekday record.
 * A fresh tally is zeros. A tally of another length is refused 16. Any counts are taken, also those that no list gives. */
#define LORUKINDE_TALLY_BYTES 136

/* A tally takes in an answer of a sheet's reading (also by an edition, of a house sheet, or a feed's line) and its records. The
 * number is returned: 0; 16 if they do not fit; then 15 if a count would pass 4,294,967,295. A refusal changes no byte of the tally.
 * They fit exactly if the number is 0, 1, 3 to 13, 19, 22 or 23; a refusal has 0 records, 0 warnings and a table of length 0; an
 * accepted answer has as many records as the table has groups of 64 bytes, none left over, and they are heads, at least one, each
 * with just its number of items, every word in its kind's range by itself:
 *
 *   head        separator and state 0 to 2; comment start, length and number of items from 0 up
 *   years       1900 to 9999 twice; step 0 to 32,767          weeks       1 to 53 twice; step 0 to 255
 *   months      year 0 or 1900 to 9999; 1 to 12 twice         holidays    1 or 2; day offset -32,767 to 32,767
 *   dates       year 0 or 1900 to 9999, of a fixed end to 10000; month 1 to 12; day 1 to 31 or weekday 1 to 7; n -5 to -1 or 1 to 5 of
 *               a weekday date, else 0; easter has month, day and n 0; weekday offset -7 to 7; day offset as for holidays
 *   weekdays    1 to 7 twice; day offset; both masks 0 to 31
 *   times       kind 0 with 0 to 1,440, as an end to 2,880, or kind 1 to 4 with -1,440 to 1,440; repeat -1 to 1,439; 0 or 1; 0 or 1
 *
 * Unused words are 0, and word 15 is any from 0 up. Place and warnings of an accepted answer may be any, and a refusal's place. What
 * a reading wrote fits. */
uint32_t lorukinde_tally_add(uint8_t *tally, size_t tally_len, uint32_t number, uint32_t place, uint32_t records,
                             uint32_t warnings, const uint8_t *table, size_t table_len);

/* Adds other to tally, count by count, in place. The number is returned: 0; 16 if one has another length than 136, then 15 if a sum
 * would pass 4,294,967,295; a refusal changes nothing. The tallies of two lists joined are the tally of one list followed by the
 * other; in which order and grouping tallies are joined does not matter. */
uint32_t lorukinde_tally_join(uint8_t *tally, size_t tally_len, const uint8_t *other, size_t other_len);

/* The note shown for a rule, by the comment's start and length out of its head. It is the comment out of the sheet; where the
 * length is 0, the caller's standing note, whole; for numbers outside the sheet and a length that is not 0, the empty part at the
 * standing note's start. Returned is 1 where it is a part of the sheet, 0 where it is a part of the standing note; stored are where
 * it begins, in from, and where it ends, in to. Of both texts the call is given the length alone. */
uint32_t lorukinde_note(size_t sheet_len, size_t note_len, int32_t start, int32_t length, size_t *from, size_t *to);

/* What is asked of a table of records that anyone may have made. It fits, or the call returns 16 before all else and changes no byte:
 * whole records of 64 bytes, the first a head, each head with just its number of items after it, every word in the range of its kind
 * (as said above at the records; a year 0 or 1900 to 9999, of a fixed end also 10000; a week step 0 to 255, any other step and day
 * offsets up to 32,767; repeat -1 to 1,439), words of a form or kind that are not used 0, word 15 from 0 up. Each word is judged
 * alone: the records of every reading fit, and others too. */

/* Runs a rule, counted from 0, over recorded days: which of them do its day selectors touch? A day is 12 bytes, its year, month and
 * day, each 32 bits, unsigned, little-endian; an answer is 4 bytes, such a number: 0 no, 1 yes, 2 undecided.
 * Years and weeks (ISO 8601) touch by range and step counted from the first, step 0 the first alone; months and weekdays go round; a
 * span of fixed dates without offsets is compared as numbers, without years going round, with years in both ends not. Undecided are
 * easter, weekdays of a month, holidays, any offset, dates with a year in one end alone, months of a year that run backwards, and
 * weekdays with marks other than all ten. Years, month days, weeks, and weekdays with holidays are four kinds: a kind is its best item
 * (yes, undecided, no), the rule its worst kind, or yes with none.
 * Returned is 0, 16, 20 (also with no days at all), or 24, the first of these that is the case; unless it is 0, no byte is changed.
 * Bytes after the answers are unchanged. The days are judged before anything is written. */
#define LORUKINDE_DAY_BYTES 12
#define LORUKINDE_DAY_ANSWER_BYTES 4
uint32_t lorukinde_rule_days(const uint8_t *table, size_t table_len, size_t rule, const uint8_t *days, size_t days_len,
                             uint8_t *answers, size_t answers_len);

/* Builds the list of a table's rules. An entry is 8 bytes, two numbers of 32 bits, unsigned, little-endian: the number of the rule's
 * head among the records, from 0, and the months that its month-day items can touch in any year, bit m-1 for month m.
 * No month-day items mean all months (4,095), as does an offset in one, or a span of dates with easter or a year in its ends. Months
 * and other dates touch their months going round. Both ends in one month touch that one if they are equal, or both fixed and the end
 * day not less, else all.
 * Returned is 0, 16, or 21 where the list has fewer entries than the table rules; unless it is 0, no byte is changed. Entries past the
 * rules are unchanged. */
#define LORUKINDE_ENTRY_BYTES 8
uint32_t lorukinde_rule_months(const uint8_t *table, size_t table_len, uint8_t *entries, size_t entries_len);

/* Renews a list after a part of its sheet was exchanged for one with as many rules. rules is how many rules the list has, first the
 * number of the part's first rule, old_records how many records the part had; the table has its new records, as
 * lorukinde_read_part writes them. The part's entries are built anew; entries after them, up to rules, keep their months and have
 * the change in records added to their heads' numbers. Of accepted parts that is what building the whole list afresh gives.
 * The list is taken on trust: the part's first entry says where its heads begin, old_records is only subtracted, and heads' numbers
 * are counted modulo 2^32. Returned is 0, 16, or 21 where the list has fewer than rules entries or first plus the part's rules passes
 * rules; unless it is 0, no byte is changed. Entries past rules are unchanged. */
uint32_t lorukinde_renew_months(uint8_t *entries, size_t entries_len, size_t rules, size_t first, size_t old_records,
                                const uint8_t *table, size_t table_len);

/* In the shared library alone, liblorukinde.so: what the Rust crate says in plain words, and many sheets in one call. These are not
 * proved, though they read by the calls above; they allocate. What the caller keeps is as said first.
 *
 * A sentence is UTF-8 without a byte 0 at its end. Its length in bytes is returned; it is written to out where it fits there, else
 * no byte of out is changed. */

/* The manner of reading, by its number. */
enum { LORUKINDE_EDITION_1 = 1, LORUKINDE_EDITION_2 = 2, LORUKINDE_HOUSE = 3 };

/* The rules of a table in plain words, in their order, parted by byte 10; the table is one that a reading of the sheet wrote. */
size_t lorukinde_say_rules(const uint8_t *sheet, size_t sheet_len, const uint8_t *table, size_t table_len, uint8_t *out,
                           size_t out_len);

/* Why the part of a sheet from begin to end is refused in a manner, and what to write instead; for a sheet that was read whole, its
 * part is all of it. */
size_t lorukinde_say_refusal(uint32_t manner, const uint8_t *sheet, size_t sheet_len, size_t begin, size_t end, uint32_t number,
                             size_t place, uint8_t *out, size_t out_len);

/* A place as people count: the line, parted by byte 10, and the character in it, both from 1. */
void lorukinde_position(const uint8_t *text, size_t text_len, size_t place, size_t *line, size_t *column);

/* Reads many sheets, each part by part, from the one with the number first on. They stand one after the other in text; ends says
 * where each ends, never falling.
 * Each part has 28 bytes of parts, seven words as a record's are: number, place, records and warnings as lorukinde_read_part gives
 * them, the sheet's number from 0, and where the part begins and ends in its sheet. The records follow each other in the table.
 * As many sheets are read as are sure to fit: one of n bytes where there is room for n records and n + 1 parts, or for 4,096 and
 * 4,097. Stored are the number of the sheet after the last that was read, and the parts and the records of those that were.
 * Returned is 0, or 19 for another manner. */
#define LORUKINDE_PART_BYTES 28
uint32_t lorukinde_read_parts(uint32_t manner, const uint8_t *text, const size_t *ends, size_t sheets, size_t first, uint8_t *parts,
                              size_t parts_len, uint8_t *table, size_t table_len, size_t *next, size_t *part_count,
                              size_t *records);

/* lorukinde_rule_days for every rule of such parts with their table: for each rule a row of answers, one for each day. The first
 * number that is not 0 is returned; the rows before it are written. */
uint32_t lorukinde_parts_days(const uint8_t *parts, size_t parts_len, const uint8_t *table, size_t table_len, const uint8_t *days,
                              size_t days_len, uint8_t *answers, size_t answers_len);

/* A line, ended by byte 10, for each rule of such parts and for each part that is refused, in their order: what it says, its note,
 * and by which items its first undecided day is undecided; between them byte 9. The answers are those of lorukinde_parts_days. */
size_t lorukinde_say_parts(uint32_t manner, const uint8_t *text, const size_t *ends, size_t sheets, const uint8_t *parts,
                           size_t parts_len, const uint8_t *table, size_t table_len, const uint8_t *days, size_t days_len,
                           const uint8_t *answers, size_t answers_len, uint8_t *out, size_t out_len);

/* lorukinde_tally_add for all answers of a feed with its table, all or none: the first number that is not 0 is returned. */
uint32_t lorukinde_tally_feed(uint8_t *tally, size_t tally_len, const uint8_t *answers, size_t answers_len, const uint8_t *table,
                              size_t table_len);

/* LORUKINDE_VERSION of the library, ended by a byte 0. */
const char *lorukinde_version(void);

#ifdef __cplusplus
}
#endif

#endif
