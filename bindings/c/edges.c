/* A test of what the header says of buffers: one that is a byte too short is left as it was, and behind what is written no
 * byte changes. Reads a file from standard input, prints what was broken, and ends with status 0 where nothing was. */
#include "bay.h"

#include <stdio.h>
#include <string.h>

enum { MOST = 4096, MARK = 0xa5 };

static uint8_t file[MOST];
static size_t len;
static uint8_t buf[MOST + 1];
static int broken;

static void hold(int kept, const char *what)
{
    if (!kept) {
        printf("broken: %s\n", what);
        broken = 1;
    }
}

/* Whether every byte of the buffer from AT on is as it was set. */
static int untouched(size_t at)
{
    for (; at < sizeof buf; at++)
        if (buf[at] != MARK)
            return 0;
    return 1;
}

typedef size_t function(const uint8_t *, size_t, uint8_t *, size_t);

/* A function that wants ROOM bytes and answers SIZE where it has them, and nothing where it has one fewer. */
static void test(function *f, size_t room, size_t size, const char *what)
{
    memset(buf, MARK, sizeof buf);
    hold(f(file, len, buf, room) == size, what);
    hold(untouched(size), what);
    memset(buf, MARK, sizeof buf);
    if (room > 0)
        hold(f(file, len, buf, room - 1) == 0, what);
    hold(untouched(0), what);
}

/* bay_judge as a function that answers how many bytes it wrote. */
static uint32_t number;

static size_t judged(const uint8_t *f, size_t n, uint8_t *place, size_t room)
{
    hold(bay_judge(f, n, place, room) == number, "the number that bay_judge returns");
    return room < BAY_PLACE_SIZE ? 0 : BAY_PLACE_SIZE;
}

int main(void)
{
    len = fread(file, 1, sizeof file, stdin);
    number = bay_judge(file, len, buf, 0);
    test(judged, BAY_PLACE_SIZE, BAY_PLACE_SIZE, "bay_judge");
    test(bay_report, BAY_REPORT_SIZE, BAY_REPORT_SIZE, "bay_report");
    size_t text = bay_text(file, len, buf, BAY_TEXT_SIZE);
    hold(text > 0, "a text is never empty");
    test(bay_text, BAY_TEXT_SIZE, text, "bay_text");
    int table = number < 11;
    test(bay_rewrite, len, table ? len : 0, "bay_rewrite");
    return broken;
}
