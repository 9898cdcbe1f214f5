/* A hand-written reader in plain C, as an anchor for speed: what straightforward C costs for these sheets. Nothing is proved of it. It is for the rules as
 * they were before the requests: no place of an item in word 15, no editions, no judgement of a comment's bytes, no feeds, a refusal's place is its rule's.
 * One pass: records go into a table of its own and are copied when the sheet is known to be good; a sheet with more records than that holds is read a second
 * time, into the caller's table. Warnings are counted as names are read.
 *   gcc -O2 -c reader.c        then link it in the place of the library */
#include <string.h>

#include "lorukinde.h"

enum { WEEKDAY = 1, MONTH, EVENT, EASTER, MODIFIER, HOLIDAY, WEEK, DAY };
enum { MISSING = -1, GOT = 0 };        /* else the number of a refusal */
enum { KEPT = 16 };                    /* records of the table of its own */

typedef const uint8_t *Place;

typedef struct {
    Place begin, end, rule;            /* the text, and the rule that is being read */
    int32_t *out;                      /* where records go, and how many there is room for */
    size_t room, count;
    unsigned warnings;
} Reader;

typedef struct { int kind, value, odd; } Name;   /* odd: not written as it should be */

/* ---- bytes, numbers, names: each takes a place and returns the one after, or NULL */

static inline int at(const Reader *r, Place p) { return p < r->end ? *p : 0; }

static inline int is_digit(int b) { return (unsigned)b - '0' < 10; }

static inline Place blanks(const Reader *r, Place p)
{
    while (at(r, p) == ' ')
        p++;
    return p;
}

static inline Place blank(const Reader *r, Place p) { return at(r, p) == ' ' ? blanks(r, p + 1) : NULL; }

static inline Place digits(const Reader *r, Place p, int least, int most, int *n)
{
    int k = 0, sum = 0;
    for (; k < most && is_digit(at(r, p)); k++)
        sum = sum * 10 + *p++ - '0';
    *n = sum;
    return k < least ? NULL : p;
}

/* a number that is not the hour of a clock time */
static Place number(const Reader *r, Place p, int least, int most, int *n)
{
    if (!(p = digits(r, p, least, most, n)))
        return NULL;
    Place q = p;
    while (is_digit(at(r, q)))
        q++;
    return at(r, q) == ':' && is_digit(at(r, q + 1)) ? NULL : p;
}

/* `letters` stand after the first two, in any case */
static inline Place rest(const Reader *r, Place p, const char *letters, int n)
{
    if (r->end - p < n)
        return NULL;
    for (int i = 0; i < n; i++)
        if ((p[i] | 32) != letters[i])
            return NULL;
    return p + n;
}

/* the longest name at p */
static Place name(const Reader *r, Place p, Name *w)
{
    if (r->end - p < 2 || *p < 'A')
        return NULL;
    int a = p[0], b = p[1];
    Place q = p + 2, e = NULL;
#define KEY(a, b) ((a) << 8 | (b))
#define IS(k, v, letters) ((e = rest(r, q, letters, sizeof letters - 1)) != NULL ? (w->kind = (k), w->value = (v), 1) : 0)
    switch (KEY(a | 32, b | 32)) {
    case KEY('m', 'o'): IS(WEEKDAY, 1, ""); break;
    case KEY('t', 'u'): IS(WEEKDAY, 2, ""); break;
    case KEY('w', 'e'):
        if (r->end - p >= 4 && !memcmp(p, "week", 4)) {
            w->kind = WEEK, w->value = 0, w->odd = 0;
            return p + 4;
        }
        IS(WEEKDAY, 3, "");
        break;
    case KEY('t', 'h'): IS(WEEKDAY, 4, ""); break;
    case KEY('f', 'r'): IS(WEEKDAY, 5, ""); break;
    case KEY('s', 'a'): IS(WEEKDAY, 6, ""); break;
    case KEY('s', 'u'): IS(EVENT, 2, "nrise") || IS(EVENT, 3, "nset") || IS(WEEKDAY, 7, ""); break;
    case KEY('j', 'a'): IS(MONTH, 1, "n"); break;
    case KEY('f', 'e'): IS(MONTH, 2, "b"); break;
    case KEY('m', 'a'): IS(MONTH, 3, "r") || IS(MONTH, 5, "y"); break;
    case KEY('a', 'p'): IS(MONTH, 4, "r"); break;
    case KEY('j', 'u'): IS(MONTH, 6, "n") || IS(MONTH, 7, "l"); break;
    case KEY('a', 'u'): IS(MONTH, 8, "g"); break;
    case KEY('s', 'e'): IS(MONTH, 9, "p"); break;
    case KEY('o', 'c'): IS(MONTH, 10, "t"); break;
    case KEY('n', 'o'): IS(MONTH, 11, "v"); break;
    case KEY('d', 'e'): IS(MONTH, 12, "c"); break;
    case KEY('d', 'u'): IS(EVENT, 4, "sk"); break;
    case KEY('e', 'a'): IS(EASTER, 0, "ster"); break;
    case KEY('o', 'p'): IS(MODIFIER, 0, "en"); break;
    case KEY('c', 'l'): IS(MODIFIER, 1, "osed"); break;
    case KEY('o', 'f'): IS(MODIFIER, 1, "f"); break;
    case KEY('u', 'n'): IS(MODIFIER, 2, "known"); break;
    case KEY('d', 'a'):
        if (IS(EVENT, 1, "wn"))
            break;
        if (a != 'd' || b != 'a' || r->end - q < 1 || *q != 'y')
            return NULL;
        w->kind = DAY, w->value = 0, w->odd = 0;
        return at(r, q + 1) == 's' ? q + 2 : q + 1;
    case KEY('p', 'h'):
    case KEY('s', 'h'):
        if (b != 'H' || (a != 'P' && a != 'S'))
            return NULL;
        w->kind = HOLIDAY, w->value = a == 'P' ? 1 : 2, w->odd = 0;
        return q;
    }
    if (!e)
        return NULL;
    /* one capital and then small for weekdays and months, else all small */
    int small = a & 32, others = b;
    for (; q < e; q++)
        others &= *q;
    w->odd = !(others & 32) || (w->kind <= MONTH ? small != 0 : small == 0);
    return e;
}

static Place name_of(Reader *r, Place p, int kind, int *value)
{
    Name w;
    if (!(p = name(r, p, &w)) || w.kind != kind)
        return NULL;
    *value = w.value;
    r->warnings += w.odd;
    return p;
}

/* ---- records */

static inline int32_t *record(Reader *r)
{
    static int32_t spare[16];
    size_t k = r->count++;
    int32_t *w = k < r->room ? r->out + 16 * k : spare;
    memset(w, 0, 64);
    return w;
}

static inline int three(Reader *r, int kind, int a, int b, int c)
{
    int32_t *w = record(r);
    w[0] = kind, w[1] = a, w[2] = b, w[3] = c;
    return GOT;
}

/* ---- times */

typedef struct { int kind, less, hour, minute; } Time;

static inline Place clock(const Reader *r, Place p, int *hour, int *minute)
{
    if (!(p = digits(r, p, 1, 2, hour)) || at(r, p) != ':')
        return NULL;
    return digits(r, p + 1, 2, 2, minute);
}

static Place time_at(Reader *r, Place p, Time *t)
{
    Place q;
    t->kind = t->less = 0;
    if ((q = clock(r, p, &t->hour, &t->minute)))
        return q;
    t->hour = t->minute = 0;
    if ((q = name_of(r, p, EVENT, &t->kind)))
        return q;
    if (at(r, p) != '(' || !(q = name_of(r, p + 1, EVENT, &t->kind)) || (at(r, q) != '+' && at(r, q) != '-'))
        return NULL;
    t->less = *q == '-';
    if (!(q = clock(r, q + 1, &t->hour, &t->minute)) || at(r, q) != ')')
        return NULL;
    return q + 1;
}

static inline int day_clock(const Time *t) { return t->minute <= 59 && (t->hour <= 23 || t->hour * 60 + t->minute == 1440); }

static inline int minutes_of(const Time *t) { int n = t->hour * 60 + t->minute; return t->less ? -n : n; }

static int span_after(Reader *r, Place *c, Place p, const Time *a)
{
    Time b = {0, 0, 24, 0};
    int repeat = -1, open = 0, alone = 0, good = 1, n, m;
    Place q;
    if (at(r, p) == '+') {
        open = 1, p++;
    } else if (at(r, p) == '-' && (q = time_at(r, p + 1, &b))) {
        p = q;
        good = b.kind ? day_clock(&b) : b.minute <= 59 && b.hour * 60 + b.minute <= 2880;
        if (at(r, p) == '+') {
            open = 1, p++;
        } else if (at(r, p) == '/') {
            if ((q = clock(r, p + 1, &n, &m)))
                p = q, repeat = n * 60 + m, good &= n <= 23 && m <= 59;
            else if ((q = number(r, p + 1, 2, 2, &m)))
                p = q, repeat = m, good &= m <= 59;
        }
    } else {
        alone = 1;
    }
    if (!good || !day_clock(a))
        return 4;
    if (alone)
        return 8;
    int32_t *w = record(r);
    w[0] = 8, w[1] = a->kind, w[2] = minutes_of(a), w[3] = b.kind, w[4] = minutes_of(&b), w[5] = repeat, w[6] = open;
    *c = p;
    return GOT;
}

static int times(Reader *r, Place *c)
{
    Time a;
    Place p = time_at(r, *c, &a);
    return p ? span_after(r, c, p, &a) : MISSING;
}

/* ---- weekdays, holidays, offsets */

static Place day_offset(const Reader *r, Place p, int *days)
{
    int n;
    Name w;
    *days = 0;
    Place q = blank(r, p);
    if (!q || (at(r, q) != '+' && at(r, q) != '-'))
        return p;
    int less = *q == '-';
    if (!(q = number(r, q + 1, 1, 5, &n)) || !(q = blank(r, q)) || !(q = name(r, q, &w)) || w.kind != DAY)
        return p;
    *days = less ? -n : n;
    return q;
}

static inline int good_days(int n) { return -32767 <= n && n <= 32767; }

/* entries up to `]`: p after it, or NULL */
static Place entries(const Reader *r, Place p, int *starts, int *ends, int *good)
{
    int n, m;
    Place q;
    *starts = *ends = 0, *good = 1;
    for (;;) {
        int back = at(r, p) == '-';
        if (!(p = number(r, p + back, 1, 1, &n)))
            return NULL;
        m = n;
        if (!back && at(r, p) == '-' && (q = number(r, p + 1, 1, 1, &m)))
            p = q;
        else
            m = n;
        *good &= n >= 1 && n <= 5 && m >= 1 && m <= 5;
        for (int k = n; k <= m; k++)
            *(back ? ends : starts) |= 1 << k >> 1;
        if (at(r, p) == ']')
            return p + 1;
        if (at(r, p) != ',')
            return NULL;
        p++;
    }
}

static int weekday_after(Reader *r, Place *c, Place p, int first)
{
    int last = first, days = 0, starts = 0, ends = 0, good = 1, n;
    Place q;
    if (at(r, p) == '-' && (q = name_of(r, p + 1, WEEKDAY, &n))) {
        last = n, p = q;
    } else if (at(r, p) == '[') {
        if ((q = entries(r, p + 1, &starts, &ends, &good)))
            p = day_offset(r, q, &days);
        else
            starts = ends = 0, good = 1;
    }
    if (!good || !good_days(days))
        return 4;
    if (!starts && !ends)
        starts = ends = 31;
    int32_t *w = record(r);
    w[0] = 6, w[1] = first, w[2] = last, w[3] = days, w[4] = starts, w[5] = ends;
    *c = p;
    return GOT;
}

static int holiday_after(Reader *r, Place *c, Place p, int kind)
{
    int days;
    p = day_offset(r, p, &days);
    if (!good_days(days))
        return 4;
    *c = p;
    return three(r, 7, kind, days, 0);
}

/* ---- years, weeks, month days */

static Place range(const Reader *r, Place p, int least, int most, int *last, int *step)
{
    int n;
    Place q;
    *step = 1;
    if (at(r, p) != '-' || !(q = number(r, p + 1, least, most, &n)))
        return p;
    p = q, *last = n;
    if (at(r, p) == '/' && (q = number(r, p + 1, 1, 5, &n)))
        p = q, *step = n;
    return p;
}

static int year_after(Reader *r, Place *c, Place p, int first)
{
    int last = first, step = 1;
    if (at(r, p) == '+')
        last = 9999, p++;
    else
        p = range(r, p, 4, 4, &last, &step);
    if (first < 1900 || last < 1900 || step > 32767)
        return 4;
    if (last < first)
        return 6;
    *c = p;
    return three(r, 2, first, last, last - first < step ? 1 : step);
}

static int weeks(Reader *r, Place *c)
{
    int first, last, step;
    Place p = number(r, *c, 1, 2, &first);
    if (!p)
        return MISSING;
    last = first;
    p = range(r, p, 1, 2, &last, &step);
    if (first < 1 || first > 53 || last < 1 || last > 53 || step > 32767)
        return 4;
    if (step > 255)
        return 5;
    if (last < first)
        return 7;
    *c = p;
    return three(r, 5, first, last, last - first < step ? 1 : step);
}

typedef struct { int form, year, month, day, nth, wday, days; } Date;

/* after a name of a date; the year is set */
static Place day_after(Reader *r, Place p, const Name *w, Date *d)
{
    int n;
    Place q;
    d->nth = 0;
    if (w->kind == EASTER) {
        d->form = 3, d->month = d->day = 0;
        r->warnings += w->odd;
        return p;
    }
    if (w->kind != MONTH || !(p = blank(r, p)))
        return NULL;
    d->month = w->value;
    if ((q = number(r, p, 1, 2, &n))) {
        d->form = 1, d->day = n;
        r->warnings += w->odd;
        return q;
    }
    Name v;
    if (!(q = name(r, p, &v)) || v.kind != WEEKDAY || at(r, q) != '[')
        return NULL;
    int less = at(r, ++q) == '-';
    if (!(q = number(r, q + less, 1, 1, &n)) || at(r, q) != ']')
        return NULL;
    d->form = 2, d->day = v.value, d->nth = less ? -n : n;
    r->warnings += w->odd + v.odd;
    return q + 1;
}

static Place offset(Reader *r, Place p, Date *d)
{
    Place q;
    d->wday = 0;
    int b = at(r, p), n;
    if ((b == '+' || b == '-') && (q = name_of(r, p + 1, WEEKDAY, &n)))
        d->wday = b == '-' ? -n : n, p = q;
    return day_offset(r, p, &d->days);
}

static int good_date(const Date *d, int year_given)
{
    if (year_given && d->year < 1900)
        return 0;
    if (d->form == 1 && (d->day < 1 || d->day > 31))
        return 0;
    return d->form != 2 || (d->nth >= -5 && d->nth <= 5 && d->nth != 0);
}

static Place optional_year(const Reader *r, Place p, int *year, int *given)
{
    Place q = number(r, p, 4, 4, year);
    *given = q && (q = blank(r, q));
    if (*given)
        return q;
    *year = 0;
    return p;
}

static void bare_end(const Date *a, Date *b)
{
    int e = b->day;
    b->form = 1, b->nth = 0, b->year = a->year, b->month = a->month;
    if (a->form == 2 || a->day <= e)
        return;
    if (b->month < 12)
        b->month++;
    else
        b->month = 1, b->year += a->year != 0;
}

static int dates_after(Reader *r, Place *c, Place p, Date *a, int given)
{
    enum { NONE, OPEN, UNTIL, BARE } end = NONE;
    Date b = {0};
    int b_given = 0, n;
    Place q;
    Name w;
    p = offset(r, p, a);
    if (at(r, p) == '+') {
        end = OPEN, p++;
    } else if (at(r, p) == '-') {
        q = optional_year(r, p + 1, &b.year, &b_given);
        if ((q = name(r, q, &w)) && (q = day_after(r, q, &w, &b)))
            end = UNTIL, p = offset(r, q, &b);
        else if ((q = number(r, p + 1, 1, 2, &n)))
            end = BARE, b.day = n, p = offset(r, q, &b);
    }
    if (!good_date(a, given) || !good_days(a->days))
        return 4;
    if (end == UNTIL && (!good_date(&b, b_given) || !good_days(b.days)))
        return 4;
    if (end == BARE && (b.day < 1 || b.day > 31 || !good_days(b.days)))
        return 4;
    if (end == BARE && a->form == 3)
        return 9;
    if (end == NONE)
        b = *a;
    else if (end == OPEN)
        b = (Date){1, a->year ? 9999 : 0, 12, 31, 0, 0, 0};
    else if (end == BARE)
        bare_end(a, &b);
    int32_t *x = record(r);
    x[0] = 4;
    memcpy(x + 1, a, sizeof *a);
    memcpy(x + 8, &b, sizeof b);
    *c = p;
    return GOT;
}

/* after the first name of a month day */
static int month_day_after(Reader *r, Place *c, Place p, int year, int given, const Name *w)
{
    Date a;
    a.year = year;
    Place q = day_after(r, p, w, &a);
    if (q)
        return dates_after(r, c, q, &a, given);
    if (w->kind != MONTH)
        return MISSING;
    int last = w->value, n;
    r->warnings += w->odd;
    if (at(r, p) == '-' && (q = name_of(r, p + 1, MONTH, &n)))
        last = n, p = q;
    if (given && year < 1900)
        return 4;
    *c = p;
    return three(r, 3, year, w->value, last);
}

static int month_day(Reader *r, Place *c)
{
    int year, given;
    Name w;
    Place p = optional_year(r, *c, &year, &given);
    return (p = name(r, p, &w)) ? month_day_after(r, c, p, year, given, &w) : MISSING;
}

/* ---- rules: what was read last decides what may follow */

typedef enum { BEGINNING, ALWAYS, COLON, YEARS, MONTH_DAYS, WEEKS, WEEKDAYS, HOLIDAYS, LAST_HOLIDAYS, LAST_WEEKDAYS, TIMES } Stage;

static inline int must(int k) { return k == MISSING ? 3 : k; }

static inline int done(int k, Stage *x, Stage y)
{
    if (k == GOT)
        *x = y;
    return k;
}

/* a day of a list, after its name; both: the list may go on with the other kind */
static int day(Reader *r, Place *c, Place p, const Name *w, Stage *x)
{
    if (w->kind == WEEKDAY && *x != LAST_HOLIDAYS) {
        r->warnings += w->odd;
        return done(weekday_after(r, c, p, w->value), x, *x == HOLIDAYS || *x == LAST_WEEKDAYS ? LAST_WEEKDAYS : WEEKDAYS);
    }
    if (w->kind == HOLIDAY && *x != LAST_WEEKDAYS)
        return done(holiday_after(r, c, p, w->value), x, *x == WEEKDAYS || *x == LAST_HOLIDAYS ? LAST_HOLIDAYS : HOLIDAYS);
    return MISSING;
}

/* the first item of a list at p: widest says with what it may begin */
static int first(Reader *r, Place *c, Place p, Stage *x, Stage widest)
{
    Name w;
    int n;
    Place q = name(r, p, &w);
    *c = p;
    if (q) {
        switch (w.kind) {
        case WEEKDAY:
        case HOLIDAY:
            *x = BEGINNING;
            return day(r, c, q, &w, x);
        case EVENT: {
            Time a = {w.value, 0, 0, 0};
            r->warnings += w.odd;
            return done(span_after(r, c, q, &a), x, TIMES);
        }
        case MONTH:
        case EASTER:
            return widest > MONTH_DAYS ? MISSING : done(month_day_after(r, c, q, 0, 0, &w), x, MONTH_DAYS);
        case WEEK:
            if (widest > WEEKS)
                return MISSING;
            if (!(*c = blank(r, q)))
                return 3;
            return done(must(weeks(r, c)), x, WEEKS);
        }
        return MISSING;
    }
    if (widest <= MONTH_DAYS && (q = number(r, p, 4, 4, &n))) {
        Place b = blank(r, q), e;
        if (b && (e = name(r, b, &w))) {
            int k = month_day_after(r, c, e, n, 1, &w);
            if (k != MISSING)
                return done(k, x, MONTH_DAYS);
        }
        return widest <= YEARS ? done(year_after(r, c, q, n), x, YEARS) : MISSING;
    }
    return done(times(r, c), x, TIMES);
}

static int year_item(Reader *r, Place *c)
{
    int n;
    Place p = number(r, *c, 4, 4, &n);
    return p ? year_after(r, c, p, n) : MISSING;
}

/* after a comma */
static int listed(Reader *r, Place *c, Stage *x)
{
    Name w;
    Place p;
    switch (*x) {
    case YEARS: return must(year_item(r, c));
    case MONTH_DAYS: return must(month_day(r, c));
    case WEEKS: return must(weeks(r, c));
    case TIMES: return must(times(r, c));
    default: return (p = name(r, *c, &w)) ? must(day(r, c, p, &w, x)) : 3;
    }
}

/* one item more after what was read last */
static int more(Reader *r, Place *c, Stage *x)
{
    Place p = *c, q;
    if (*x == BEGINNING)
        return first(r, c, p, x, BEGINNING);
    if (*x == ALWAYS)
        return MISSING;
    if (*x == COLON)
        return (q = blank(r, p)) ? must(first(r, c, q, x, WEEKDAYS)) : 3;
    if (at(r, p) == ',' && at(r, p + 1) != ' ') {
        *c = p + 1;
        return listed(r, c, x);
    }
    if (*x == TIMES)
        return MISSING;
    if (*x <= WEEKS && at(r, p) == ':')
        return (q = blank(r, p + 1)) ? must(first(r, c, q, x, WEEKDAYS)) : 3;
    if (!(q = blank(r, p)))
        return MISSING;
    if (*x >= WEEKDAYS) {
        *c = q;
        return done(times(r, c), x, TIMES);
    }
    return first(r, c, q, x, *x == YEARS ? MONTH_DAYS : *x == MONTH_DAYS ? WEEKS : WEEKDAYS);
}

typedef struct { int start, length; } Comment;

static Place comment(const Reader *r, Place p, Comment *k)
{
    if (at(r, p) != '"')
        return NULL;
    Place q = p + 1;
    while (at(r, q) >= 32 && *q != '"')
        q++;
    if (q == p + 1 || at(r, q) != '"')
        return NULL;
    k->start = (int)(p + 1 - r->begin), k->length = (int)(q - p - 1);
    return q + 1;
}

static Place modifier(Reader *r, Place p, int *state, Comment *k)
{
    Place q, e;
    if ((q = name_of(r, p, MODIFIER, state)))
        return (e = blank(r, q)) && (e = comment(r, e, k)) ? e : q;
    *state = 0;
    return comment(r, p, k);
}

/* a rule at *c: GOT and the place after it, or a refusal */
static int rule(Reader *r, Place *c, int separator)
{
    Place p = *c, q, e;
    Comment wide = {0, 0}, own = {0, 0};
    Stage x = BEGINNING;
    size_t slot = r->count;
    int state = 0, k;
    if (r->end - p >= 4 && !memcmp(p, "24/7", 4))
        x = ALWAYS, p += 4;
    else if ((q = comment(r, p, &wide)) && at(r, q) == ':')
        x = COLON, p = q + 1;
    else
        wide = (Comment){0, 0};
    int32_t *head = record(r);
    for (;;) {
        unsigned before = r->warnings;
        Place d = p;
        k = more(r, &d, &x);
        if (k > 0)
            return k;
        if (k == MISSING) {
            r->warnings = before;
            break;
        }
        p = d;
    }
    if (x == BEGINNING) {
        if (!(p = modifier(r, p, &state, &own)))
            return 3;
    } else if ((q = blank(r, p)) && (e = modifier(r, q, &state, &own))) {
        p = e;
    } else {
        state = 0;
    }
    Comment shown = own.length ? own : wide;
    head[0] = 1, head[1] = separator, head[2] = state, head[3] = shown.start, head[4] = shown.length, head[5] = (int)(r->count - slot - 1);
    *c = p;
    return GOT;
}

/* the rules of the text from p on */
static int rules(Reader *r, Place p)
{
    int separator = 0;
    for (;;) {
        r->rule = p = blanks(r, p);
        int k = rule(r, &p, separator);
        if (k)
            return k;
        p = blanks(r, p);
        if (p >= r->end)
            return GOT;
        if (*p == ';')
            separator = 0, p++;
        else if (*p == ',' && at(r, p + 1) == ' ')
            separator = 1, p++;
        else if (*p == '|' && at(r, p + 1) == '|')
            separator = 2, p += 2;
        else
            return 3;
    }
}

/* the text from byte p to byte e */
static uint32_t text(const uint8_t *s, size_t p, size_t e, uint8_t *table, size_t table_len, uint32_t *place, uint32_t *records, uint32_t *warnings)
{
    int32_t kept[KEPT * 16];
    Reader r = {s, s + e, s + p, kept, KEPT, 0, 0};
    *place = *records = *warnings = 0;
    int k = rules(&r, s + p);
    if (k) {
        *place = (uint32_t)(r.rule - s);
        return (uint32_t)k;
    }
    if (table_len / 64 < r.count) {
        *place = (uint32_t)p;
        return 10;
    }
    *records = (uint32_t)r.count, *warnings = r.warnings;
    if (r.count <= KEPT) {
        memcpy(table, kept, r.count * 64);
    } else if ((uintptr_t)table % 4 == 0) {
        Reader again = {s, s + e, s + p, (int32_t *)table, r.count, 0, 0};
        rules(&again, s + p);
    } else {
        return 99; /* a table that is not aligned: not asked of this reader */
    }
    return 0;
}

uint32_t lorukinde_read_sheet(const uint8_t *s, size_t n, uint8_t *table, size_t table_len, uint32_t *place, uint32_t *records, uint32_t *warnings)
{
    *place = *records = *warnings = 0;
    return n > 4096 ? 1 : text(s, 0, n, table, table_len, place, records, warnings);
}

uint32_t lorukinde_read_part(const uint8_t *s, size_t n, size_t begin, uint8_t *table, size_t table_len, uint32_t *place, uint32_t *records,
                             uint32_t *warnings, uint32_t *next, uint32_t *last)
{
    *place = *records = *warnings = *next = 0, *last = 1;
    if (n > 4096)
        return 1;
    int inside = 0;
    if (begin > n || (begin > 0 && s[begin - 1] != ';'))
        return 2;
    for (size_t i = 0; i < begin; i++)
        inside ^= s[i] == '"';
    if (inside)
        return 2;
    size_t e = begin;
    for (; e < n && (inside || s[e] != ';'); e++)
        inside ^= s[e] == '"';
    if (e < n)
        *next = (uint32_t)e + 1, *last = 0;
    return text(s, begin, e, table, table_len, place, records, warnings);
}
