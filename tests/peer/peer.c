// peer ENGINE [--ways]: judges the framed files on standard input, one after the other, and
// prints for each the line `file K` and its text. ENGINE is `literal` or `fast`.
#include <stdbool.h>
#include <stdio.h>
#include <string.h>

#include "fast.h"
#include "frames.h"
#include "literal.h"
#include "read.h"
#include "text.h"

struct engine {
    bool literal;
    bool ways;
};

static size_t judge_file(const struct engine *engine, const uint8_t *file, size_t length, char *text)
{
    static struct table table;
    struct report report;
    struct read_answer answer = read_table(file, length, &table);
    if (answer.number != 0)
        return text_of_refused_file(answer, text);
    if (engine->literal)
        literal_report(&table, engine->ways, &report);
    else
        fast_report(&table, &report);
    return text_of_report(&report, text);
}

static void judge_frames(const struct engine *engine)
{
    static uint8_t file[FILE_BYTES_JUDGED];
    char text[64 + TEXT_BYTES];
    size_t length;
    for (uint32_t k = 1;; k++) {
        enum frame_kind kind = next_frame(stdin, file, &length);
        if (kind == FRAME_END)
            return;
        char *at = put_word(text, kind == FRAME_BROKEN ? "broken frame " : "file ");
        at = put_word(put_number(at, k), "\n");
        if (kind == FRAME_WHOLE)
            at += judge_file(engine, file, length, at);
        fwrite(text, 1, (size_t)(at - text), stdout);
        if (kind == FRAME_BROKEN)
            return;
    }
}

int main(int count, char **words)
{
    struct engine engine = {false, false};
    bool known = count >= 2 && count <= 3;
    if (known) {
        engine.literal = strcmp(words[1], "literal") == 0;
        known = engine.literal || strcmp(words[1], "fast") == 0;
    }
    if (known && count == 3) {
        engine.ways = strcmp(words[2], "--ways") == 0;
        known = engine.literal && engine.ways;
    }
    if (!known) {
        fprintf(stderr, "usage: peer literal [--ways] | peer fast\n");
        return 2;
    }
    judge_frames(&engine);
    return fflush(stdout) == 0 && !ferror(stdin) ? 0 : 1;
}
