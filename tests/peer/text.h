// The text of a file's judgement.
#ifndef PEER_TEXT_H
#define PEER_TEXT_H

#include <stddef.h>

#include "read.h"
#include "report.h"

// Eight rows of ten numbers below 2^32 stay well below this.
enum { TEXT_BYTES = 2048 };

size_t text_of_refused_file(struct read_answer answer, char *text);
size_t text_of_report(const struct report *report, char *text);

// Parts of a text, for the lines around it; each gives the end of what it wrote.
char *put_word(char *at, const char *word);
char *put_number(char *at, uint32_t number);

#endif
