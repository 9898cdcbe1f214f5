/* stack FILE: how many bytes of stack a call of lorukinde_read_sheet touches at most, over the sheets of a file, one a line, and over one sheet of as many of
 * them as 4,096 bytes hold. Each call is made by a thread of its own, whose stack was painted before: the bytes from the caller's frame to the deepest one that
 * has lost its paint. */
#include <pthread.h>
#include <stdio.h>
#include <string.h>

#include "lorukinde.h"

enum { STACK = 1 << 20, PAINT = 0xA5, LONGEST = 4096, RECORDS = 2740 };

static uint8_t stack[STACK] __attribute__((aligned(4096)));
static uint8_t table[RECORDS * LORUKINDE_RECORD_BYTES];
static const uint8_t *sheet;
static size_t length;
static const uint8_t *caller; /* where the frame of the thread's function begins */

static void *call(void *unused)
{
    uint32_t place, records, warnings;
    caller = __builtin_frame_address(0);
    lorukinde_read_sheet(sheet, length, table, sizeof table, &place, &records, &warnings);
    return unused;
}

static size_t touched(const uint8_t *text, size_t n)
{
    pthread_attr_t attr;
    pthread_t thread;
    sheet = text;
    length = n;
    memset(stack, PAINT, sizeof stack);
    pthread_attr_init(&attr);
    pthread_attr_setstack(&attr, stack, sizeof stack);
    if (pthread_create(&thread, &attr, call, NULL) || pthread_join(thread, NULL))
        return 0;
    const uint8_t *deepest = stack;
    while (*deepest == PAINT)
        deepest++;
    return (size_t)(caller - deepest);
}

int main(int argc, char **argv)
{
    static char line[LONGEST + 2], whole[LONGEST];
    FILE *f = argc == 2 ? fopen(argv[1], "rb") : NULL;
    if (!f) {
        fprintf(stderr, "stack FILE: the file cannot be read\n");
        return 1;
    }
    size_t most = 0, used = 0;
    while (fgets(line, sizeof line, f)) {
        size_t n = strcspn(line, "\n"), now = touched((const uint8_t *)line, n);
        most = now > most ? now : most;
        if (used + n + 2 <= sizeof whole) {
            memcpy(whole + used, line, n);
            memcpy(whole + used + n, "; ", 2);
            used += n + 2;
        }
    }
    fclose(f);
    size_t now = touched((const uint8_t *)whole, used ? used - 2 : 0);
    printf("%zu\n", now > most ? now : most);
    return 0;
}
