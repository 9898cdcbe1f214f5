/* fuzz SEED CALLS end|begin: drives the C calls with random sheets, tables and places for at least CALLS calls, and stops at the first wrong answer.
 *
 * Every lent buffer (sheet, table, answers, each number) ends exactly at an unreadable page (end) or begins exactly after one (begin), so a step outside it on
 * that side is a fault; on the other side the bytes next to it are compared. The sheet, or feed, is lent through a read-only view. Before each call the table has
 * fresh random marks; after it every byte after the records is as before, and on a refusal every byte. */
#define _GNU_SOURCE
#include <signal.h>
#include <stdbool.h>
#include <stdio.h>
#include <stdlib.h>
#include <string.h>
#include <sys/mman.h>
#include <unistd.h>

#include "lorukinde.h"

enum { PAGE = 4096, SHEET_ROOM = 6 * PAGE, RECORDS = 2740, TABLE_ROOM = 43 * PAGE, NEAR = 256, NUMBERS = 5, MOST = LORUKINDE_SHEET_BYTES, ANSWER_ROOM = 4 * PAGE, PROGRESS_CALLS = 250000 };

/* ---- random numbers: splitmix64 */
static uint64_t state;

static uint64_t next64(void)
{
    uint64_t z = state += 0x9e3779b97f4a7c15u;
    z = (z ^ z >> 30) * 0xbf58476d1ce4e5b9u;
    z = (z ^ z >> 27) * 0x94d049bb133111ebu;
    return z ^ z >> 31;
}

static size_t below(size_t n)
{
    return (size_t)(next64() % n);
}

static bool chance(unsigned percent)
{
    return below(100) < percent;
}

/* ---- lent buffers */
static bool at_end;

struct room {
    uint8_t *lend; /* what a call is given a part of */
    uint8_t *own;  /* the same bytes, always writable */
    size_t size;
};

static void must(bool good, const char *what)
{
    if (!good) {
        perror(what);
        exit(2);
    }
}

/* so many bytes between two unreadable pages */
static struct room room_of(size_t size, int protection)
{
    int file = memfd_create("room", 0);
    must(file >= 0 && !ftruncate(file, (off_t)size), "memfd_create");
    uint8_t *whole = mmap(NULL, size + 2 * PAGE, PROT_NONE, MAP_PRIVATE | MAP_ANONYMOUS, -1, 0);
    must(whole != MAP_FAILED, "mmap");
    must(mmap(whole + PAGE, size, protection, MAP_SHARED | MAP_FIXED, file, 0) != MAP_FAILED, "mmap");
    uint8_t *own = mmap(NULL, size, PROT_READ | PROT_WRITE, MAP_SHARED, file, 0);
    must(own != MAP_FAILED, "mmap");
    return (struct room){whole + PAGE, own, size};
}

static size_t offset(const struct room *r, size_t length)
{
    return at_end ? r->size - length : 0;
}

static struct room sheet_room, table_room, answer_room, number_rooms[NUMBERS], size_rooms[2];
static uint8_t marks[TABLE_ROOM]; /* what the table's room held before the call */
static uint8_t sheet[SHEET_ROOM]; /* the sheet of this round, and its length */
static size_t length;
static const uint8_t *lent_bytes; /* the sheet or feed that was lent last, and its length */
static size_t lent_length;

static void stop(const char *what)
{
    printf("WRONG: %s\nlent last, %zu bytes: ", what, lent_length);
    for (size_t i = 0; i < lent_length; i++)
        printf(lent_bytes[i] >= 32 && lent_bytes[i] < 127 && lent_bytes[i] != '\\' ? "%c" : "\\x%02x", lent_bytes[i]);
    printf("\n");
    exit(1);
}

static void stepped_outside(int signal)
{
    (void)signal;
    stop("a step outside a lent buffer, or a write to the sheet");
}

static void need(bool good, const char *what)
{
    if (!good)
        stop(what);
}

static void fill(uint8_t *to, size_t n)
{
    for (size_t i = 0; i < n; i += 8) {
        uint64_t x = next64();
        memcpy(to + i, &x, n - i < 8 ? n - i : 8);
    }
}

/* a number's place, with marks beside it */
static void *lend_number(const struct room *r, size_t bytes)
{
    memset(r->own, 0xa5, NEAR);
    memset(r->own + r->size - NEAR, 0xa5, NEAR);
    return r->lend + offset(r, bytes);
}

static void number_kept(const struct room *r, size_t bytes)
{
    for (size_t i = 0; i < NEAR; i++)
        need(at_end ? i < bytes || r->own[r->size - 1 - i] == 0xa5 : i < bytes || r->own[i] == 0xa5, "a byte beside a number was changed");
}

/* ---- calls */
struct answer {
    uint32_t number, place, records, warnings, next, last;
    const uint8_t *table;
};

/* by which of the calls a sheet or a part is read */
enum how { PLAIN, IN_EDITION_1, IN_EDITION_2, IN_NO_EDITION, HOUSE, HOWS };
static const char *const how_named[HOWS] = {"", "_in, edition 1", "_in, edition 2", "_in, no edition", ", house"};

static uint32_t edition_of(enum how how)
{
    static const uint32_t none[] = {0, 3, 4, 0x101, 0x102, 0x10001, UINT32_MAX};
    return how == IN_EDITION_1 ? 1 : how == IN_EDITION_2 ? 2 : chance(50) ? none[below(7)] : 3 + (uint32_t)below(UINT32_MAX - 2);
}

enum { ANSWERS = LORUKINDE_HOUSE_ORDER + 1 };
static uint64_t calls, sheet_numbers[HOWS][ANSWERS], part_numbers[HOWS][ANSWERS], feed_numbers[ANSWERS], notes[2], records_seen, warnings_seen;

enum { PLACE = 15 }; /* the word of a record that says where its item begins */

static int32_t word(const uint8_t *record, int i)
{
    const uint8_t *b = record + 4 * i;
    return (int32_t)((uint32_t)b[0] | (uint32_t)b[1] << 8 | (uint32_t)b[2] << 16 | (uint32_t)b[3] << 24);
}

/* the records of the call before, which stay readable until the next one */
static size_t old_from, old_bytes;

/* the table's fresh marks before a call, and after it only records have changed */
static uint8_t *lend_table(size_t bytes)
{
    size_t o = offset(&table_room, bytes);
    memcpy(table_room.own + old_from, marks + old_from, old_bytes);
    fill(marks + o, bytes);
    memcpy(table_room.own + o, marks + o, bytes);
    return table_room.lend + o;
}

static void table_kept(size_t bytes, const struct answer *a)
{
    size_t o = offset(&table_room, bytes), used = (size_t)a->records * 64;
    need(used <= bytes, "more records than the table holds");
    old_from = o, old_bytes = used;
    need(!memcmp(table_room.own + o + used, marks + o + used, bytes - used), a->number ? "a refusal changed the table" : "a byte after the records was changed");
    size_t front = o < PAGE ? o : PAGE, back = table_room.size - o - bytes < PAGE ? table_room.size - o - bytes : PAGE;
    need(!memcmp(table_room.own + o - front, marks + o - front, front), "a byte before the table was changed");
    need(!memcmp(table_room.own + o + bytes, marks + o + bytes, back), "a byte after the table was changed");
}

static bool within(int32_t x, int32_t lo, int32_t hi)
{
    return lo <= x && x <= hi;
}

static bool year(int32_t y)
{
    return y == 0 || within(y, 1900, 10000);
}

/* form, year, month, day or weekday, n, weekday offset, day offset: words i to i + 6 */
static bool date(const uint8_t *r, int i)
{
    int32_t form = word(r, i), m = word(r, i + 2), d = word(r, i + 3), n = word(r, i + 4);
    bool shape = form == 1 ? within(m, 1, 12) && within(d, 1, 31) && n == 0
               : form == 2 ? within(m, 1, 12) && within(d, 1, 7) && within(n, -5, 5) && n != 0
                           : form == 3 && m == 0 && d == 0 && n == 0;
    return shape && year(word(r, i + 1)) && within(word(r, i + 5), -7, 7) && within(word(r, i + 6), -32767, 32767);
}

static bool moment(int32_t kind, int32_t at, int32_t most)
{
    return kind == 0 ? within(at, 0, most) : within(kind, 1, 4) && within(at, -1440, 1440);
}

/* marks and offsets of a range of weekdays are edition 2's */
static bool range_good(enum how how, const int32_t *w)
{
    bool every_week = w[3] == 0 && w[4] == 31 && w[5] == 31;
    return how == IN_EDITION_2 || w[1] == w[2] || every_week;
}

/* so is a point in time, which ends where it starts */
static bool point_good(enum how how, const int32_t *w)
{
    bool same_time = w[1] == w[3] && w[2] == w[4];
    return w[7] == 0 || (how == IN_EDITION_2 && w[7] == 1 && same_time && w[5] == -1 && w[6] == 0);
}

/* an item's words lie in their ranges; those from `used` on are 0, but for the last */
static bool item(enum how how, const uint8_t *r)
{
    int32_t w[16], used = 0;
    for (int i = 0; i < 16; i++)
        w[i] = word(r, i);
    bool good = false;
    switch (w[0]) {
    case 2: used = 4; good = within(w[1], 1900, w[2]) && within(w[2], w[1], 9999) && within(w[3], 0, w[2] - w[1] ? w[2] - w[1] : 1); break;
    case 3: used = 4; good = year(w[1]) && w[1] < 10000 && within(w[2], 1, 12) && within(w[3], 1, 12); break;
    case 4: used = 15; good = date(r, 1) && date(r, 8) && w[2] < 10000; break;
    case 5: used = 4; good = within(w[1], 1, w[2]) && within(w[2], w[1], 53) && within(w[3], 0, w[2] - w[1] ? w[2] - w[1] : 1); break;
    case 6: used = 6; good = within(w[1], 1, 7) && within(w[2], 1, 7) && within(w[3], -32767, 32767) && within(w[4], 0, 31) && within(w[5], 0, 31) && w[4] + w[5] > 0 && range_good(how, w); break;
    case 7: used = 3; good = within(w[1], 1, 2) && within(w[2], -32767, 32767); break;
    case 8: used = 8; good = moment(w[1], w[2], 1440) && moment(w[3], w[4], 2880) && within(w[5], -1, 1439) && within(w[6], 0, 1) && point_good(how, w); break;
    }
    for (int i = used; i < PLACE; i++)
        good = good && w[i] == 0;
    return good;
}

static bool comment_bytes(const uint8_t *s, size_t n)
{
    bool good = n > 0;
    for (size_t i = 0; good && i < n; i++)
        good = s[i] >= 32 && s[i] != '"';
    return good;
}

/* whether so many bytes are letters in their shortest form, none of them a surrogate or above 10FFFF */
static bool well_formed(const uint8_t *s, size_t n)
{
    for (size_t i = 0; i < n;) {
        size_t more = s[i] < 0x80 ? 0 : s[i] < 0xc0 ? 4 : s[i] < 0xe0 ? 1 : s[i] < 0xf0 ? 2 : s[i] < 0xf8 ? 3 : 4;
        if (more > 3 || more >= n - i)
            return false;
        uint32_t letter = more ? s[i] & (0x3fu >> more) : s[i];
        for (size_t k = 1; k <= more; k++) {
            if ((s[i + k] & 0xc0) != 0x80)
                return false;
            letter = letter << 6 | (s[i + k] & 0x3fu);
        }
        static const uint32_t least[] = {0, 0x80, 0x800, 0x10000};
        if (letter < least[more] || letter > 0x10ffff || (letter >= 0xd800 && letter <= 0xdfff))
            return false;
        i += 1 + more;
    }
    return true;
}

/* a head's words, for a text from `begin` to `end`; its comment stands between two quotes */
static bool head(const uint8_t *r, bool first, const uint8_t *s, size_t begin, size_t end)
{
    int32_t start = word(r, 3), n = word(r, 4);
    bool good = word(r, 0) == 1 && within(word(r, 1), 0, first ? 0 : 2) && within(word(r, 2), 0, 2) && word(r, 5) >= 0;
    for (int i = 6; i < PLACE; i++)
        good = good && word(r, i) == 0;
    if (n == 0)
        return good && start == 0;
    good = good && n > 0 && start > (int32_t)begin && (size_t)start + (size_t)n < end && s[start - 1] == '"' && s[start + n] == '"';
    return good && comment_bytes(s + start, (size_t)n) && well_formed(s + start, (size_t)n);
}

static bool one_of(uint8_t b, const char *some)
{
    return b && strchr(some, b);
}

/* whether only blanks stand between i and the text's beginning or a separator */
static bool rule_begins(const uint8_t *s, size_t begin, size_t i)
{
    size_t blanks = i;
    while (blanks > begin && s[blanks - 1] == ' ')
        blanks--;
    return blanks == begin || one_of(s[blanks - 1], ";|") || (s[blanks - 1] == ',' && blanks < i);
}

/* whether the text's end or a separator stands at i */
static bool rule_ends(const uint8_t *s, size_t end, size_t i)
{
    uint8_t next = i + 1 < end ? s[i + 1] : 0;
    return i == end || s[i] == ';' || (s[i] == ',' && next == ' ') || (s[i] == '|' && next == '|');
}

/* whether a quote stands at i, and after it another one or none at all */
static bool broken_quote(const uint8_t *s, size_t end, size_t i)
{
    return i < end && s[i] == '"' && (!memchr(s + i + 1, '"', end - i - 1) || s[i + 1] == '"');
}

/* whether a comment stands at i that is not well-formed */
static bool ill_formed_comment(const uint8_t *s, size_t end, size_t i)
{
    const uint8_t *closing = i < end && s[i] == '"' ? memchr(s + i + 1, '"', end - i - 1) : NULL;
    return closing && comment_bytes(s + i + 1, (size_t)(closing - s) - i - 1) && !well_formed(s + i + 1, (size_t)(closing - s) - i - 1);
}

/* whether an item can begin at i */
static bool item_begins(const uint8_t *s, size_t begin, size_t end, size_t i)
{
    static const char first[] = "(0123456789ABCDEFGHIJKLMNOPQRSTUVWXYZabcdefghijklmnopqrstuvwxyz";
    return i < end && one_of(s[i], first) && (i == begin || one_of(s[i - 1], " ;,|"));
}

/* the number where no shape fits at i */
static uint32_t no_shape(const uint8_t *s, size_t begin, size_t end, size_t i)
{
    if (rule_begins(s, begin, i) && rule_ends(s, end, i))
        return LORUKINDE_EMPTY_RULE;
    return broken_quote(s, end, i) ? LORUKINDE_BROKEN_QUOTE : LORUKINDE_NO_SHAPE;
}

/* the place of a refusal, as far as the text from `begin` to `end` of s tells it */
static bool place_good(uint32_t number, size_t place, const uint8_t *s, size_t begin, size_t end)
{
    switch (number) {
    case LORUKINDE_TOO_LONG:
    case LORUKINDE_NO_PART:
    case LORUKINDE_UNKNOWN_EDITION: return place == 0;
    case LORUKINDE_NO_ROOM: return place == begin;
    case LORUKINDE_NO_SHAPE:
    case LORUKINDE_EMPTY_RULE:
    case LORUKINDE_BROKEN_QUOTE: return (place == end || s[place] != ' ') && number == no_shape(s, begin, end, place);
    case LORUKINDE_ILL_FORMED_COMMENT: return ill_formed_comment(s, end, place);
    case LORUKINDE_RANGE:
    case LORUKINDE_WEEK_STEP:
    case LORUKINDE_YEARS_INVERTED:
    case LORUKINDE_WEEKS_INVERTED:
    case LORUKINDE_POINT_IN_TIME:
    case LORUKINDE_EASTER_DAY:
    case LORUKINDE_HOUSE_ORDER: return item_begins(s, begin, end, place);
    case LORUKINDE_HOUSE_FORM: return item_begins(s, begin, end, place) || rule_begins(s, begin, place);
    default: return false;
    }
}

/* the answer for the text from `begin` to `end` of s */
static void answer_good(enum how how, const struct answer *a, const uint8_t *s, size_t begin, size_t end, size_t table_bytes)
{
    need(a->number < ANSWERS, "a number that there is not");
    need((a->number == LORUKINDE_UNKNOWN_EDITION) == (how == IN_NO_EDITION), "19 is for an unknown edition");
    need(how == HOUSE || (a->number != LORUKINDE_HOUSE_FORM && a->number != LORUKINDE_HOUSE_ORDER), "22 and 23 are the house's");
    need(a->number != LORUKINDE_POINT_IN_TIME || how != IN_EDITION_2, "8 is not given in edition 2");
    if (a->number) {
        need(a->records == 0 && a->warnings == 0, "a refusal with records or warnings");
        need(a->place >= begin && a->place <= end, "a refusal's place is not in the text");
        need(place_good(a->number, a->place, s, begin, end), "nothing at a refusal's place that can have its number");
        return;
    }
    need(a->place == 0 && a->records >= 1 && (size_t)a->records * 64 <= table_bytes, "an accepted text's numbers");
    need(a->warnings <= end - begin, "more warnings than bytes");
    size_t from = begin; /* where the next item can begin */
    for (uint32_t i = 0; i < a->records;) {
        const uint8_t *r = a->table + 64 * (size_t)i;
        need(head(r, i == 0, s, begin, end), "a head's words");
        size_t place = (size_t)(uint32_t)word(r, PLACE);
        need(place >= from && place < end && s[place] != ' ' && rule_begins(s, begin, place), "a head's place");
        from = place;
        uint32_t items = (uint32_t)word(r, 5);
        need(items < a->records - i, "item counts that do not add up");
        for (uint32_t k = 1; k <= items; k++, from = place + 1) {
            need(item(how, r + 64 * k), "an item's words");
            place = (size_t)(uint32_t)word(r + 64 * k, PLACE);
            need(place >= from && item_begins(s, begin, end, place), "an item's place");
        }
        i += 1 + items;
    }
    records_seen += a->records;
    warnings_seen += a->warnings;
}

static const uint8_t *lend_sheet(const uint8_t *s, size_t n)
{
    size_t o = offset(&sheet_room, n);
    lent_bytes = s, lent_length = n;
    memcpy(sheet_room.own + o, s, n);
    return sheet_room.lend + o;
}

static struct answer read_sheet(enum how how, const uint8_t *s, size_t n, size_t table_bytes)
{
    struct answer a = {0};
    const uint8_t *lent = lend_sheet(s, n);
    uint8_t *table = lend_table(table_bytes);
    uint32_t *p[3];
    for (int i = 0; i < 3; i++)
        p[i] = lend_number(&number_rooms[i], 4);
    if (how == PLAIN)
        a.number = lorukinde_read_sheet(lent, n, table, table_bytes, p[0], p[1], p[2]);
    else if (how == HOUSE)
        a.number = lorukinde_read_house_sheet(lent, n, table, table_bytes, p[0], p[1], p[2]);
    else
        a.number = lorukinde_read_sheet_in(edition_of(how), lent, n, table, table_bytes, p[0], p[1], p[2]);
    calls++;
    for (int i = 0; i < 3; i++)
        number_kept(&number_rooms[i], 4);
    a.place = *p[0], a.records = *p[1], a.warnings = *p[2], a.table = table;
    need(a.number != LORUKINDE_NO_PART, "a sheet's number");
    need((a.number == 1) == (n > MOST && how != IN_NO_EDITION), "1 is for over 4,096 bytes");
    table_kept(table_bytes, &a);
    answer_good(how, &a, s, 0, n, table_bytes);
    sheet_numbers[how][a.number]++;
    return a;
}

/* the part at `begin`, which is to end at `end`; end is above n where no part begins there */
static struct answer read_part(enum how how, const uint8_t *s, size_t n, size_t begin, size_t end, size_t table_bytes)
{
    struct answer a = {0};
    const uint8_t *lent = lend_sheet(s, n);
    uint8_t *table = lend_table(table_bytes);
    uint32_t *p[NUMBERS];
    for (int i = 0; i < NUMBERS; i++)
        p[i] = lend_number(&number_rooms[i], 4);
    if (how == PLAIN)
        a.number = lorukinde_read_part(lent, n, begin, table, table_bytes, p[0], p[1], p[2], p[3], p[4]);
    else if (how == HOUSE)
        a.number = lorukinde_read_house_part(lent, n, begin, table, table_bytes, p[0], p[1], p[2], p[3], p[4]);
    else
        a.number = lorukinde_read_part_in(edition_of(how), lent, n, begin, table, table_bytes, p[0], p[1], p[2], p[3], p[4]);
    calls++;
    for (int i = 0; i < NUMBERS; i++)
        number_kept(&number_rooms[i], 4);
    a.place = *p[0], a.records = *p[1], a.warnings = *p[2], a.next = *p[3], a.last = *p[4], a.table = table;
    need((a.number == 1) == (n > MOST && how != IN_NO_EDITION), "1 is for over 4,096 bytes");
    need((a.number == 2) == (n <= MOST && end > n && how != IN_NO_EDITION), "2 is for a place where no part begins");
    table_kept(table_bytes, &a);
    bool none = a.number == LORUKINDE_TOO_LONG || a.number == LORUKINDE_NO_PART || a.number == LORUKINDE_UNKNOWN_EDITION;
    answer_good(how, &a, s, none ? 0 : begin, none ? n : end, table_bytes);
    need(a.last <= 1 && (none || end == n ? a.last == 1 && a.next == 0 : a.last == 0 && a.next == end + 1), "next, last");
    part_numbers[how][a.number]++;
    return a;
}

static void note(size_t sheet_bytes, size_t note_bytes, int32_t start, int32_t n)
{
    size_t *from = lend_number(&size_rooms[0], sizeof *from), *to = lend_number(&size_rooms[1], sizeof *to);
    uint32_t which = lorukinde_note(sheet_bytes, note_bytes, start, n, from, to);
    calls++;
    number_kept(&size_rooms[0], sizeof *from);
    number_kept(&size_rooms[1], sizeof *to);
    need(which <= 1 && *from <= *to && *to <= (which ? sheet_bytes : note_bytes), "a note outside its slice");
    bool inside = n > 0 && start >= 0 && (uint64_t)start + (uint64_t)n <= sheet_bytes;
    if (inside)
        need(which == 1 && *from == (size_t)start && *to == (size_t)start + (size_t)n, "a note that is not the comment");
    else
        need(which == 0 && *from == 0 && *to == (n ? 0 : note_bytes), "a note that is not the standing note, or not empty");
    notes[which]++;
}

/* ---- sheets: a small grammar, damage, and bytes of any kind */
static void put(const char *text)
{
    size_t n = strlen(text);
    if (length + n <= sizeof sheet) {
        memcpy(sheet + length, text, n);
        length += n;
    }
}

#define PICK(...) pick((const char *[]){__VA_ARGS__}, sizeof((const char *[]){__VA_ARGS__}) / sizeof(char *))
static void pick(const char *const *some, size_t n)
{
    put(some[below(n)]);
}

static void number(const char *form, unsigned lo, unsigned hi)
{
    char text[16];
    if (chance(3)) /* just outside, or far */
        lo = hi + 1, hi = chance(50) ? lo : 2 * lo + 9;
    snprintf(text, sizeof text, form, lo + (unsigned)below(hi - lo + 1));
    put(text);
}

static void name(const char *const *some, size_t n)
{
    size_t from = length;
    pick(some, n);
    if (chance(4)) /* some letters small that are large, or the reverse */
        for (size_t i = from; i < length; i++)
            sheet[i] ^= chance(50) ? 32 : 0;
}
#define NAME(...) name((const char *[]){__VA_ARGS__}, sizeof((const char *[]){__VA_ARGS__}) / sizeof(char *))
#define WEEKDAY() NAME("Mo", "Tu", "We", "Th", "Fr", "Sa", "Su")
#define MONTH() NAME("Jan", "Feb", "Mar", "Apr", "May", "Jun", "Jul", "Aug", "Sep", "Oct", "Nov", "Dec")
#define EVENT() NAME("dawn", "sunrise", "sunset", "dusk")

static void blank(void)
{
    put(chance(95) ? " " : "   ");
}

static void years(void)
{
    number("%04u", 1900, 9999);
    if (chance(30))
        put("+");
    else if (chance(50)) {
        put("-");
        number("%04u", 1900, 9999);
        if (chance(50))
            put("/"), number("%u", 0, 32767);
    }
}

static void weeks(void)
{
    number("%02u", 1, 53);
    if (chance(50)) {
        put("-");
        number("%u", 1, 53);
        if (chance(50))
            put("/"), number("%u", 0, 255);
    }
}

static void day_offset(void)
{
    blank(), PICK("+", "-"), number("%u", 0, 32767), blank(), PICK("day", "days");
}

static void maybe_offset(void)
{
    if (chance(15))
        PICK("+", "-"), WEEKDAY();
    if (chance(15))
        day_offset();
}

static void one_date(void)
{
    if (chance(30))
        number("%04u", 1900, 9999), blank();
    if (chance(15)) {
        NAME("easter");
        return;
    }
    MONTH(), blank();
    if (chance(75))
        number("%u", 1, 31);
    else
        WEEKDAY(), put(chance(50) ? "[" : "[-"), number("%u", 1, 5), put("]");
}

static void month_days(void)
{
    if (chance(30)) {
        MONTH();
        if (chance(50))
            put("-"), MONTH();
        return;
    }
    one_date(), maybe_offset();
    switch (below(4)) {
    case 0: put("+"); break;
    case 1: put("-"), one_date(), maybe_offset(); break;
    case 2: put("-"), number("%u", 1, 31), maybe_offset(); break;
    }
}

static void weekdays(void)
{
    if (chance(25)) {
        PICK("PH", "SH");
        if (chance(20))
            day_offset();
        return;
    }
    WEEKDAY();
    bool range = chance(40);
    if (range)
        put("-"), WEEKDAY();
    if (chance(range ? 3 : 30)) { /* marks of a range are edition 2's */
        put("[");
        do {
            if (chance(30))
                put("-");
            number("%u", 1, 5);
            if (chance(20))
                put("-"), number("%u", 1, 5);
        } while (chance(40) && (put(","), true));
        put("]");
        if (chance(range ? 5 : 20))
            day_offset();
    } else if (chance(3)) {
        day_offset(); /* edition 2's too */
    }
}

static void one_time(unsigned hours)
{
    if (chance(80))
        number("%u", 0, hours), put(":"), number("%02u", 0, 59);
    else if (chance(50))
        EVENT();
    else
        put("("), EVENT(), PICK("+", "-"), number("%u", 0, 23), put(":"), number("%02u", 0, 59), put(")");
}

static void times(void)
{
    size_t from = length;
    one_time(23);
    size_t to = length;
    if (chance(4))
        return; /* a point in time */
    if (chance(4) && 2 * to - from < sizeof sheet) { /* a span that ends where it starts */
        put("-");
        memcpy(sheet + length, sheet + from, to - from);
        length += to - from;
        return;
    }
    if (chance(15)) {
        put("+");
        return;
    }
    put("-"), one_time(47);
    switch (below(8)) {
    case 0: put("+"); break;
    case 1: put("/"), number("%02u", 0, 59); break;
    case 2: put("/"), number("%u", 0, 23), put(":"), number("%02u", 0, 59); break;
    }
}

static void list(void (*one)(void))
{
    one();
    while (chance(25))
        put(","), one();
}

static void comment(void)
{
    put("\"");
    for (size_t n = 1 + below(8); n > 0; n--)
        if (chance(3))
            PICK("\xff", "\xc0\xaf", "\xed\xa0\x80", "\xf4\x90\x80\x80", "\xe2\x82", "\x80");
        else
            PICK("a", ";", " ", ",", "||", "\xc3\xa9", "\xe2\x82\xac", "\xf0\x9d\x84\x9e", "Mo", "x:");
    put("\"");
}

static void rule(void)
{
    if (chance(5)) {
        put("24/7");
    } else if (chance(95)) {
        bool any = false;
        if (chance(4))
            comment(), put(": "), list(weekdays), any = true;
        if (!any && chance(15))
            list(years), any = true;
        if (chance(25))
            any ? blank() : (void)0, list(month_days), any = true;
        if (chance(12))
            any ? blank() : (void)0, put("week"), blank(), list(weeks), any = true;
        if (any && chance(10))
            put(":");
        if (!any || chance(50))
            any ? blank() : (void)0, list(weekdays), any = true;
        if (chance(50))
            blank(), list(times);
    } else {
        list(times);
    }
    if (chance(30)) {
        blank();
        if (chance(80))
            NAME("open", "closed", "off", "unknown");
        else
            comment();
        if (chance(30))
            blank(), comment();
    }
}

static void damage(void)
{
    static const char bytes[] = "0123456789 ::;,|+-/[]()\"\"MoTuWeJanPHSHweekdays\t\\\x7f\xff";
    size_t i = below(length + 1), n;
    uint8_t b = chance(80) ? (uint8_t)bytes[below(sizeof bytes)] : (uint8_t)next64(); /* its last byte, 0, too */
    switch (below(4)) {
    case 0: /* another byte */
        if (i < length)
            sheet[i] = b;
        break;
    case 1: /* one more */
        if (length < sizeof sheet)
            memmove(sheet + i + 1, sheet + i, length - i), sheet[i] = b, length++;
        break;
    case 2: /* some fewer */
        n = below(4);
        n = n < length - i ? n : length - i;
        memmove(sheet + i, sheet + i + n, length - i - n), length -= n;
        break;
    default: /* cut */
        if (chance(30))
            length = i;
    }
}

static void rules_up_to(size_t most)
{
    rule();
    while (length < most)
        PICK(";", "; ", ", ", " || ", "||", " ; "), rule();
}

static void make_sheet(void)
{
    size_t kind = below(1000);
    length = 0;
    if (kind < 120) { /* any bytes */
        length = below(chance(90) ? 40 : 300);
        fill(sheet, length);
    } else if (kind < 200) { /* bytes of sheets, in any order */
        static const char bytes[] = "0123459 ::;;,|+-/[]()\"\"MoSuweekJan";
        for (length = 0; length < 30 && chance(95); length++)
            sheet[length] = (uint8_t)bytes[below(sizeof bytes - 1)];
    } else if (kind < 204) { /* as long as a sheet may be, a little less or more */
        size_t whole = MOST - 3 + below(7), good = chance(50) ? 100 : 99;
        switch (below(6)) {
        case 0: rules_up_to(whole); break;
        case 1: put("week 1"); while (length < whole) put(",2"); break; /* the most records of one rule */
        case 2: while (length < whole) put(chance((unsigned)good) ? "Mo;" : ";"); break; /* the most parts and records */
        case 3: put("Mo \""); while (length < whole - 1) put(chance(90) ? "c" : ";"); put("\""); break;
        case 4: put("10:00-12:00"); while (length < whole) put(",10:00-12:00"); break;
        default: length = whole; fill(sheet, length);
        }
        if (chance(70) && whole < length)
            length = whole;
        if (chance(30) && sheet[length - 1] == ';')
            length--;
        while (chance(50) && length < whole)
            put(" ");
    } else if (kind < 205) { /* far too long */
        length = MOST + below(sizeof sheet - MOST + 1);
        fill(sheet, length);
    } else if (kind < 215) {
        rules_up_to(100 + below(900));
    } else {
        if (chance(5))
            blank();
        rules_up_to(below(chance(70) ? 1 : 60));
        if (chance(5))
            blank();
    }
    if (kind >= 200 && kind != 204)
        for (size_t n = below(10) < 6 ? 0 : 1 + below(3); n > 0; n--)
            damage();
}

static size_t any_table(void)
{
    switch (below(10)) {
    case 0: return 0;
    case 1: return below(130);
    case 2: return 64 * below(8) + below(3) * 63 % 65;
    case 3: return below(5) ? below(3000) : below(RECORDS * 64 + 1);
    case 4: return 512 * 64;
    default: return 64 * (1 + below(24));
    }
}

/* ---- a round: one sheet, by the plain calls and by some others */
/* bytes of a table that holds every text of n bytes: `Mo;Mo` has the most records for its length, two in three bytes */
static size_t ample(size_t n)
{
    return n <= MOST ? 64 * (2 * (n + 1) / 3 + 3) : RECORDS * 64;
}

static uint8_t whole[RECORDS * 64]; /* the sheet's records with a table that holds everything */
static size_t begins[MOST + 2], ends[MOST + 2];

/* the parts of the sheet: a quote flips inside and outside, a part ends at a `;` outside */
static size_t cut(void)
{
    size_t parts = 0;
    bool inside = false;
    begins[0] = 0;
    for (size_t i = 0; i < length; i++) {
        inside ^= sheet[i] == '"';
        if (sheet[i] == ';' && !inside)
            ends[parts++] = i, begins[parts] = i + 1;
    }
    ends[parts++] = length;
    return parts;
}

static bool same_numbers(const struct answer *a, const struct answer *b)
{
    return a->number == b->number && a->place == b->place && a->records == b->records && a->warnings == b->warnings;
}

/* a reading with some other table: the same answer and records where they fit, else 10 */
static void same_with(enum how how, size_t table_bytes, const struct answer *full)
{
    struct answer a = read_sheet(how, sheet, length, table_bytes);
    if (full->number == 0 && full->records > table_bytes / 64) {
        need(a.number == 10, "10 where the records do not fit");
        return;
    }
    need(same_numbers(&a, full), "the answer hangs on the table");
    need(!memcmp(a.table, whole, 64 * (size_t)a.records), "the records hang on the table");
}

/* a part read in its sheet is the part read alone, with its places moved */
static void same_alone(enum how how, size_t begin, size_t end, size_t table_bytes, const struct answer *in_sheet, const uint8_t *records)
{
    struct answer a = read_sheet(how, sheet + begin, end - begin, table_bytes);
    need(a.number == in_sheet->number && a.place + (a.number ? begin : 0) == in_sheet->place, "a part alone: number, place");
    need(a.records == in_sheet->records && a.warnings == in_sheet->warnings, "a part alone: records, warnings");
    for (size_t i = 0; i < a.records; i++)
        for (int k = 0; k < 16; k++) {
            const uint8_t *r = a.table + 64 * i;
            bool moves = k == PLACE || (k == 3 && word(r, 0) == 1 && word(r, 4));
            int32_t moved = moves ? (int32_t)begin : 0;
            need(word(r, k) + moved == word(records + 64 * i, k), "a part alone: its records");
        }
}

/* the sheet with a table that holds everything, and with others; its records are then in `whole` */
static struct answer by_tables(enum how how)
{
    struct answer full = read_sheet(how, sheet, length, ample(length));
    need(full.number != 10, "10 with a table that holds everything");
    memcpy(whole, full.table, 64 * (size_t)full.records);
    if (full.number == 0 && full.records > 1 && chance(50))
        same_with(how, 64 * (size_t)full.records - 1 - below(2) * 63, &full); /* just too small */
    if (full.number == 0 && chance(50))
        same_with(how, 64 * (size_t)full.records + below(64), &full); /* just enough */
    same_with(how, any_table(), &full);
    return full;
}

/* the sheet's parts, from 0 on by next; they make the sheet */
static void by_parts(enum how how, const struct answer *full, size_t parts)
{
    static uint8_t kept[RECORDS * 64];
    size_t used = 0, first_bad = parts, warnings = 0;
    struct answer bad = {0};
    for (size_t k = 0, place = 0; k < parts; k++) {
        need(place == begins[k], "next does not go from part to part");
        struct answer a = read_part(how, sheet, length, place, ends[k], ample(ends[k] - place));
        need(a.number != 10, "10 with a table that holds everything");
        if (a.number && first_bad == parts)
            first_bad = k, bad = a;
        if (a.number == 0 && full->number == 0) {
            need(used + a.records <= full->records && !memcmp(a.table, whole + 64 * used, 64 * (size_t)a.records), "the parts' records, in order, are the sheet's");
            used += a.records, warnings += a.warnings;
        }
        place = a.next;
        if (chance(30) && (parts < 50 || chance(5))) {
            size_t table_bytes = chance(50) ? any_table() : ample(ends[k] - begins[k]);
            struct answer b = read_part(how, sheet, length, begins[k], ends[k], table_bytes);
            memcpy(kept, b.table, 64 * (size_t)b.records);
            same_alone(how, begins[k], ends[k], table_bytes, &b, kept);
        }
    }
    need((full->number == 0) == (first_bad == parts), "a sheet is accepted exactly when every part is");
    if (full->number == 0)
        need(used == full->records && warnings == full->warnings, "the parts' records and warnings are the sheet's");
    else if (how != HOUSE) /* a later rule's 3 comes before an earlier rule's 22 */
        need(full->number == bad.number && full->place == bad.place, "a sheet is refused as its first refused part is");
}

/* places of any kind */
static void by_places(enum how how, size_t parts)
{
    for (int i = 0; i < 2; i++) {
        size_t place = chance(10) ? (size_t)next64() >> below(64) : chance(10) ? length + below(3) : below(length + 1), end = length + 1;
        for (size_t k = 0; k < parts; k++)
            if (begins[k] == place)
                end = ends[k];
        read_part(how, sheet, length, place, end, any_table());
    }
}

/* the sheet and its parts, by one of the manners */
static struct answer by_manner(enum how how)
{
    struct answer full = by_tables(how);
    size_t parts = length > MOST || how == IN_NO_EDITION ? 0 : cut();
    if (parts)
        by_parts(how, &full, parts);
    by_places(how, parts);
    return full;
}

/* notes: of the records, and of any numbers */
static void some_notes(const struct answer *full)
{
    if (full->number == 0)
        note(length, below(50), word(whole, 3), word(whole, 4));
    static const int32_t edge[] = {INT32_MIN, INT32_MIN + 1, -1, 0, 1, 2, 4095, 4096, 4097, INT32_MAX - 1, INT32_MAX};
    int32_t start = chance(30) ? edge[below(11)] : chance(20) ? (int32_t)next64() : (int32_t)below(length + 3);
    int32_t n = chance(30) ? edge[below(11)] : chance(20) ? (int32_t)next64() : (int32_t)below(length + 3);
    note(chance(5) ? (size_t)next64() >> below(64) : length, chance(5) ? (size_t)next64() >> below(64) : below(100), start, n);
}

/* what the house says of an accepted sheet's records: 0, or 22 or 23 at the leftmost record that breaks its profile */
static uint32_t house_says(const uint8_t *records, uint32_t n, uint32_t *place)
{
    int32_t latest = 0; /* when the rule's earlier spans end */
    for (const uint8_t *r = records; r < records + 64 * (size_t)n; r += 64) {
        bool form = true, order = true;
        if (word(r, 0) == 1)
            latest = 0, form = word(r, 1) == 0;
        if (word(r, 0) == 8) {
            form = word(r, 1) == 0 && word(r, 3) == 0 && word(r, 4) <= 1440 && word(r, 5) == -1 && word(r, 6) == 0;
            order = word(r, 2) < word(r, 4) && word(r, 2) >= latest;
            latest = word(r, 4);
        }
        *place = (uint32_t)word(r, PLACE);
        if (!form || !order)
            return form ? LORUKINDE_HOUSE_ORDER : LORUKINDE_HOUSE_FORM;
    }
    *place = 0;
    return LORUKINDE_ACCEPTED;
}

static void round_of_sheets(void)
{
    static uint8_t plain_records[RECORDS * 64];
    make_sheet();
    struct answer plain = by_manner(PLAIN);
    memcpy(plain_records, whole, 64 * (size_t)plain.records);
    some_notes(&plain);
    enum how how = PLAIN + 1 + (enum how)below(HOWS - 1);
    struct answer other = by_manner(how);
    if (how == IN_EDITION_1 || (how == IN_EDITION_2 && plain.number == 0))
        need(same_numbers(&plain, &other) && !memcmp(whole, plain_records, 64 * (size_t)plain.records), "what edition 1 accepts, both editions read alike");
    if (how == HOUSE) {
        struct answer said = plain;
        if (plain.number == 0)
            said.number = house_says(plain_records, plain.records, &said.place);
        if (said.number)
            said.records = said.warnings = 0;
        need(same_numbers(&said, &other) && !memcmp(whole, plain_records, 64 * (size_t)said.records), "a house sheet is edition 1's that keeps the profile");
    }
}

/* ---- feeds */
static uint8_t feed[SHEET_ROOM];
static size_t feed_length;

static void make_feed(void)
{
    feed_length = 0;
    for (size_t n = below(6); n > 0; n--) {
        make_sheet();
        if (feed_length + length >= sizeof feed)
            break;
        memcpy(feed + feed_length, sheet, length);
        feed_length += length;
        feed[feed_length++] = '\n';
    }
    if (feed_length && chance(50)) /* the last line without its end */
        feed_length--;
}

/* how many bytes of the feed the line at `begin` has */
static size_t line_length(size_t begin)
{
    const uint8_t *end = memchr(feed + begin, '\n', feed_length - begin);
    return end ? (size_t)(end - feed) - begin : feed_length - begin;
}

static size_t count_lines(void)
{
    size_t n = 0;
    for (size_t i = 0; i < feed_length; i += line_length(i) + 1)
        n++;
    return n;
}

static struct answer line_answer(const uint8_t *b)
{
    return (struct answer){(uint32_t)word(b, 0), (uint32_t)word(b, 1), (uint32_t)word(b, 2), (uint32_t)word(b, 3), 0, 0, NULL};
}

/* each line's answer and records are those of a single reading with the room still left */
static void same_by_lines(const uint8_t *answers, const uint8_t *records, size_t all, size_t table_bytes)
{
    size_t used = 0;
    for (size_t i = 0, k = 0; i < feed_length; i += line_length(i) + 1, k++) {
        struct answer a = line_answer(answers + LORUKINDE_ANSWER_BYTES * k), one = read_sheet(PLAIN, feed + i, line_length(i), table_bytes - 64 * used);
        need(same_numbers(&a, &one), "a line's answer is not that of its sheet with the room left");
        need(used + one.records <= all && !memcmp(one.table, records + 64 * used, 64 * (size_t)one.records), "a line's records are not its sheet's");
        used += one.records;
    }
    need(used == all, "a feed's records are not its lines'");
}

static void read_feed(size_t answer_bytes, size_t table_bytes)
{
    static uint8_t answers[ANSWER_ROOM], records[RECORDS * 64];
    const uint8_t *lent = lend_sheet(feed, feed_length);
    size_t o = offset(&answer_room, answer_bytes), lines = count_lines();
    memset(answer_room.own, 0x5a, answer_room.size);
    uint8_t *table = lend_table(table_bytes);
    size_t *lines_said = lend_number(&size_rooms[0], sizeof(size_t)), *records_said = lend_number(&size_rooms[1], sizeof(size_t));
    struct answer a = {0};
    a.number = lorukinde_read_feed(lent, feed_length, answer_room.lend + o, answer_bytes, table, table_bytes, lines_said, records_said);
    calls++;
    number_kept(&size_rooms[0], sizeof(size_t));
    number_kept(&size_rooms[1], sizeof(size_t));
    need(*records_said <= RECORDS, "more records than the table holds");
    a.records = (uint32_t)*records_said;
    table_kept(table_bytes, &a);
    need(a.number == (answer_bytes / LORUKINDE_ANSWER_BYTES < lines ? LORUKINDE_NO_ANSWER_ROOM : LORUKINDE_ACCEPTED), "14 is for too few answers");
    need(*lines_said == (a.number ? 0 : lines) && (a.number == 0 || a.records == 0), "a feed's lines, and none where it is refused");
    size_t used = LORUKINDE_ANSWER_BYTES * *lines_said;
    for (size_t i = 0; i < answer_room.size; i++)
        need((i >= o && i - o < used) || answer_room.own[i] == 0x5a, "a byte beside the answers was changed");
    feed_numbers[a.number]++;
    if (a.number)
        return;
    memcpy(answers, answer_room.own + o, used);
    memcpy(records, table, 64 * (size_t)a.records);
    same_by_lines(answers, records, a.records, table_bytes);
}

/* a feed with room for its answers, or with less or more */
static void round_of_feeds(void)
{
    make_feed();
    size_t answer_bytes = LORUKINDE_ANSWER_BYTES * count_lines();
    if (chance(20))
        answer_bytes = below(answer_bytes + 1);
    else if (chance(50))
        answer_bytes += below(3 * LORUKINDE_ANSWER_BYTES);
    read_feed(answer_bytes < ANSWER_ROOM ? answer_bytes : ANSWER_ROOM, any_table());
}

static void counts(const char *name, const uint64_t *numbers, size_t n)
{
    uint64_t all = 0;
    for (size_t i = 0; i < n; i++)
        all += numbers[i];
    printf("%s: %llu calls;", name, (unsigned long long)all);
    for (size_t i = 0; i < n; i++)
        if (numbers[i])
            printf(" %zu: %llu", i, (unsigned long long)numbers[i]);
    printf("\n");
}

/* how far it is, on a terminal */
static void show_progress(uint64_t wanted)
{
    static uint64_t shown;
    if (calls - shown < PROGRESS_CALLS || !isatty(STDERR_FILENO))
        return;
    shown = calls;
    fprintf(stderr, "\r%llu of %llu calls", (unsigned long long)calls, (unsigned long long)wanted);
}

int main(int argc, char **argv)
{
    if (argc != 4 || (strcmp(argv[3], "end") && strcmp(argv[3], "begin"))) {
        fprintf(stderr, "fuzz SEED CALLS end|begin\n");
        return 2;
    }
    state = strtoull(argv[1], NULL, 10);
    uint64_t wanted = strtoull(argv[2], NULL, 10), rounds = 0;
    at_end = !strcmp(argv[3], "end");
    sheet_room = room_of(SHEET_ROOM, PROT_READ);
    table_room = room_of(TABLE_ROOM, PROT_READ | PROT_WRITE);
    answer_room = room_of(ANSWER_ROOM, PROT_READ | PROT_WRITE);
    for (int i = 0; i < NUMBERS; i++)
        number_rooms[i] = room_of(PAGE, PROT_READ | PROT_WRITE);
    for (int i = 0; i < 2; i++)
        size_rooms[i] = room_of(PAGE, PROT_READ | PROT_WRITE);
    memcpy(marks, table_room.own, TABLE_ROOM);
    signal(SIGSEGV, stepped_outside);
    signal(SIGBUS, stepped_outside);
    for (; calls < wanted; rounds++) {
        chance(15) ? round_of_feeds() : round_of_sheets();
        show_progress(wanted);
    }
    if (isatty(STDERR_FILENO))
        fprintf(stderr, "\r\033[K"); /* the line is erased */
    printf("seed %s, each buffer's %s at an unreadable page: %llu sheets and feeds, %llu calls, nothing wrong\n", argv[1], argv[3], (unsigned long long)rounds, (unsigned long long)calls);
    for (int how = 0; how < HOWS; how++) {
        char name[64];
        snprintf(name, sizeof name, "read_sheet%s, by number", how_named[how]);
        counts(name, sheet_numbers[how], ANSWERS);
        snprintf(name, sizeof name, "read_part%s, by number", how_named[how]);
        counts(name, part_numbers[how], ANSWERS);
    }
    counts("read_feed, by number", feed_numbers, ANSWERS);
    counts("note, out of the standing note (0) or the sheet (1)", notes, 2);
    printf("records looked at: %llu; warnings: %llu\n", (unsigned long long)records_seen, (unsigned long long)warnings_seen);
    return 0;
}
