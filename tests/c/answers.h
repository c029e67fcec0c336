// The functions that answer each command. They return false if the line uses the command wrongly.
#ifndef ANSWERS_H
#define ANSWERS_H

#include "text.h"

// The fields of a line after its command, the line's answer, and whether the answer has an item
// yet.
typedef struct {
    view *fields;
    size_t count;
    text *answer;
    bool has_item;
} request;

// commands.h, which tests/tables.py writes from tests/commands.txt, has a line for each command.
#define COMMAND(name, fewest, most) bool answer_##name(request *line);
#include "commands.h"
#undef COMMAND

#endif
