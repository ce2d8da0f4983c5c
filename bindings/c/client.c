/* An example of a caller: reads a stored table from standard input and prints its text, its judgement, the figures of its
 * report, and whether it is written back as it came. */
#include "bay.h"

#include <stdio.h>
#include <string.h>

enum { MOST = 4096 }; /* nothing longer is a table */

static void print_judgement(const uint8_t *file, size_t len)
{
    uint8_t place[BAY_PLACE_SIZE];
    uint32_t number = bay_judge(file, len, place, sizeof place);
    printf("judgement %u at %u %u\n", number, bay_number(place), bay_number(place + 4));
}

static void print_row(const uint8_t *row, int subsystem)
{
    static const char *const outcomes[] = {"none", "fits", "late"};
    printf("row %d:", subsystem);
    for (size_t at = 0; at < BAY_ROW_OUTCOME; at += 4)
        printf(" %u", bay_number(row + at));
    printf(" %s\n", outcomes[bay_number(row + BAY_ROW_OUTCOME)]);
}

static void print_report(const uint8_t *file, size_t len)
{
    uint8_t report[BAY_REPORT_SIZE];
    size_t size = bay_report(file, len, report, sizeof report);
    printf("report of %zu bytes: %u at %u %u, accepted %u, N %u\n", size, bay_number(report + BAY_REPORT_NUMBER),
           bay_number(report + BAY_REPORT_FIRST), bay_number(report + BAY_REPORT_SECOND),
           bay_number(report + BAY_REPORT_ACCEPTED), bay_number(report + BAY_REPORT_COUNT));
    for (int s = 0; s < BAY_ROWS; s++)
        print_row(report + BAY_REPORT_ROW(s), s + 1);
}

static void print_rewritten(const uint8_t *file, size_t len)
{
    uint8_t back[BAY_FILE_MOST];
    size_t size = bay_rewrite(file, len, back, sizeof back);
    if (size == 0)
        puts("not written back");
    else if (size == len && memcmp(file, back, len) == 0)
        printf("written back as it came, %zu bytes\n", size);
    else
        printf("written back otherwise, %zu bytes\n", size);
}

int main(void)
{
    static uint8_t file[MOST];
    static uint8_t text[BAY_TEXT_SIZE];
    size_t len = fread(file, 1, sizeof file, stdin);
    size_t size = bay_text(file, len, text, sizeof text);
    fwrite(text, 1, size, stdout);
    print_judgement(file, len);
    print_report(file, len);
    print_rewritten(file, len);
    return 0;
}
