// The answer to a list of edits.
#include "answers.h"

// Replaces the path by the path that a call writes. Returns false if the call returns an error
// code.
static bool replace(text *path, call_of_two call, view end) {
    text answer = new_text();
    bool has_answer = add_two(&answer, call, as_view(path), end);
    if (has_answer) {
        path->length = 0;
        add(path, as_view(&answer));
    }
    free(answer.bytes);
    return has_answer;
}

static const char *push(text *path, view rest) {
    replace(path, unix_path_join, rest);
    return "ok";
}

static const char *pop(text *path, view rest) {
    (void)rest;
    unix_path_span span;
    if (!unix_path_parent(path->bytes, path->length, &span)) {
        return "false";
    }
    path->length = span.length;
    return "true";
}

static const char *set_file_name(text *path, view name) {
    replace(path, unix_path_with_file_name, name);
    return "ok";
}

// Sets or adds the extension of the path with the given call. Returns the edit's answer.
static const char *edit_extension(text *path, call_of_two call, view extension) {
    unix_path_span name;
    bool is_named = unix_path_file_name(path->bytes, path->length, &name);
    if (!replace(path, call, extension)) {
        return "separator";
    }
    return is_named ? "true" : "false";
}

static const char *set_extension(text *path, view extension) {
    return edit_extension(path, unix_path_with_extension, extension);
}

static const char *add_extension(text *path, view extension) {
    return edit_extension(path, unix_path_with_added_extension, extension);
}

static const char *clear(text *path, view rest) {
    (void)rest;
    path->length = 0;
    return "ok";
}

// An edit: its word, which ends with a colon if an operand follows, and the function that applies
// it.
typedef struct {
    const char *word;
    const char *(*make)(text *, view);
} edit;

static const edit edits[] = {
    {"push:", push}, {"pop", pop},           {"name:", set_file_name}, {"ext:", set_extension},
    {"add:", add_extension}, {"clear", clear},
};

// Applies to the path the edit that the field names. Returns the edit's answer, or NULL if the
// field names no edit.
static const char *make_edit(text *path, view field) {
    for (size_t at = 0; at < sizeof edits / sizeof *edits; at++) {
        view word = view_of(edits[at].word);
        bool begins = field.length >= word.length
                      && memcmp(field.bytes, word.bytes, word.length) == 0;
        bool has_rest = word.bytes[word.length - 1] == ':';
        if (begins && (has_rest || field.length == word.length)) {
            view rest = {field.bytes + word.length, field.length - word.length};
            return edits[at].make(path, rest);
        }
    }
    return NULL;
}

bool answer_edit(request *line) {
    text path = copy_of(line->fields[0]), answers = new_text();
    const char *word = "";
    for (size_t at = 1; at < line->count && word != NULL; at++) {
        word = make_edit(&path, line->fields[at]);
        add_string(&answers, "\t");
        add_string(&answers, word == NULL ? "" : word);
    }
    if (word != NULL) {
        add(line->answer, as_view(&path));
        add(line->answer, as_view(&answers));
    }
    free(path.bytes);
    free(answers.bytes);
    return word != NULL;
}
