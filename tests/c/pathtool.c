// Answers lines as pathtool does, with the library's calls for C.
#ifdef _WIN32
#include <fcntl.h>
#include <io.h>
#endif

#include "answers.h"

// A command: its name, its fewest and most fields, and the function that answers it, which returns
// false if the command is used wrongly.
typedef struct {
    const char *name;
    size_t fewest, most;
    bool (*answer)(request *);
} command;

static const command commands[] = {
#define COMMAND(name, fewest, most) {#name, fewest, most, answer_##name},
#include "commands.h"
#undef COMMAND
};

// Returns the command of that name, or NULL if there is none.
static const command *find(view name) {
    for (size_t at = 0; at < sizeof commands / sizeof *commands; at++) {
        if (same_bytes(name, view_of(commands[at].name))) {
            return &commands[at];
        }
    }
    return NULL;
}

// Answers a line that was cut into its fields.
static void answer_fields(view *fields, size_t count, text *answer) {
    request line = {fields + 1, count - 1, answer, false};
    const command *found = find(fields[0]);
    bool is_counted = found != NULL && line.count >= found->fewest && line.count <= found->most;
    if (!is_counted || !found->answer(&line)) {
        add_string(answer, "bad command");
    }
}

// Cuts a line at its tabs, and answers it.
static void answer_line(view line, text *answer) {
    size_t count = 1;
    for (size_t at = 0; at < line.length; at++) {
        count += line.bytes[at] == '\t';
    }
    view *fields = calloc(count, sizeof *fields);
    if (fields == NULL) {
        exit(1);
    }
    size_t field = 0, begin = 0;
    for (size_t at = 0; at <= line.length; at++) {
        if (at == line.length || line.bytes[at] == '\t') {
            fields[field++] = (view){line.bytes + begin, at - begin};
            begin = at + 1;
        }
    }
    answer_fields(fields, count, answer);
    free(fields);
}

static text read_all(FILE *file) {
    text input = new_text();
    size_t count;
    do {
        make_room(&input, input.length + 65536);
        count = fread(input.bytes + input.length, 1, input.room - input.length, file);
        input.length += count;
    } while (count > 0);
    return input;
}

// Makes the standard streams pass all bytes unchanged, which Windows does only on request.
static void keep_bytes(void) {
#ifdef _WIN32
    _setmode(_fileno(stdin), _O_BINARY);
    _setmode(_fileno(stdout), _O_BINARY);
#endif
}

int main(void) {
    keep_bytes();
    text input = read_all(stdin), answer = new_text();
    for (size_t begin = 0; begin < input.length;) {
        const uint8_t *line = input.bytes + begin;
        const uint8_t *end = memchr(line, '\n', input.length - begin);
        size_t length = end == NULL ? input.length - begin : (size_t)(end - line);
        answer.length = 0;
        answer_line((view){line, length}, &answer);
        add_string(&answer, "\n");
        fwrite(answer.bytes, 1, answer.length, stdout);
        begin += length + 1;
    }
    free(input.bytes);
    free(answer.bytes);
    return ferror(stdin) || fflush(stdout) != 0;
}
