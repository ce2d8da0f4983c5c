#include "text.h"

#include <string.h>

char *put_word(char *at, const char *word)
{
    size_t length = strlen(word);
    memcpy(at, word, length);
    return at + length;
}

char *put_number(char *at, uint32_t number)
{
    char digits[10];
    unsigned count = 0;
    do {
        digits[count++] = (char)('0' + number % 10);
        number /= 10;
    } while (number != 0);
    while (count > 0)
        *at++ = digits[--count];
    return at;
}

static char *put_figure(char *at, const char *name, uint32_t figure)
{
    return put_number(put_word(at, name), figure);
}

static char *put_row(char *at, unsigned index, const struct row *row)
{
    static const char *const outcomes[] = {" none\n", " fits\n", " late\n"};
    at = put_number(at, index);
    at = put_figure(at, " X ", row->holding);
    at = put_figure(at, " local ", row->first_failing);
    at = put_figure(at, " B ", row->blocking);
    at = put_figure(at, " L ", row->active_period);
    at = put_figure(at, " jobs ", row->jobs);
    at = put_figure(at, " R ", row->response);
    at = put_figure(at, " job ", row->job);
    at = put_figure(at, " res ", row->resource);
    return put_word(at, outcomes[row->outcome]);
}

size_t text_of_refused_file(struct read_answer answer, char *text)
{
    char *at = put_figure(text, "refused ", answer.number);
    at = put_figure(at, " at ", (uint32_t)answer.offset);
    return (size_t)(put_word(at, "\n") - text);
}

static char *put_refusal(char *at, struct refusal refusal)
{
    at = put_figure(at, "refused ", refusal.number);
    at = put_figure(at, " at ", refusal.subsystem);
    at = put_figure(at, " ", refusal.task);
    return put_word(at, "\n");
}

size_t text_of_report(const struct report *report, char *text)
{
    char *at = text;
    if (report->refusal.number != 0)
        return (size_t)(put_refusal(at, report->refusal) - text);
    at = put_word(at, report->accepted ? "accepted\n" : "rejected\n");
    for (unsigned s = 0; s < report->rows; s++)
        at = put_row(at, s + 1, &report->row[s]);
    return (size_t)(at - text);
}
