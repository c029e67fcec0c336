// The rows of tests/entries.txt. The records and the slots of each row lie between pages that can't
// be read, with as many slots as are needed, one more, and one fewer.
#define _DEFAULT_SOURCE
#include "check.h"

// A row: the line, its level, the result and the refusal that it wants, its records, and how many
// slots these need.
typedef struct {
    const char *line;
    uint32_t level, result;
    unix_path_refusal refusal;
    text records;
    size_t needed;
} row;

static const unix_path_refusal no_refusal = {SIZE_MAX, SIZE_MAX - 1, UINT32_MAX};
static fence records_memory, slots_memory;

// Returns the reason that a row names.
static uint32_t reason_of(const char *name) {
    static const char *const names[] = {"name", "kind", "below_leaf", "link_used_twice",
                                        "target_is_link", "leads_out"};
    uint32_t reason = 0;
    while (reason < 6 && strcmp(name, names[reason]) != 0) {
        reason++;
    }
    return reason;
}

// Makes the call with records and slots at one end of their memory, and checks its answer.
static void check_call(const row *it, view bytes, size_t room, uint32_t level, uint32_t result,
                       bool at_end) {
    view records = fence_in(records_memory, bytes, at_end);
    size_t size = room * sizeof(unix_path_slot);
    memset(slots_memory.begin, 0xA5, slots_memory.size);
    uint8_t *begin = slots_memory.begin + (at_end ? slots_memory.size - size : 0);
    unix_path_refusal found = no_refusal;
    uint32_t answer = unix_path_check_entries(records.bytes, records.length, (void *)begin, room,
                                              level, &found);
    unix_path_refusal wanted = result == UNIX_PATH_ENTRIES_REFUSED ? it->refusal : no_refusal;
    CHECK(answer == result, "%s: %u and not %u, of %zu slots", it->line, answer, result, room);
    CHECK(found.entry == wanted.entry && found.cause == wanted.cause
          && found.reason == wanted.reason,
          "%s: entry %zu, cause %zu, reason %u", it->line, found.entry, found.cause, found.reason);
}

// Makes the calls for a row at a level.
static void ask_row(const row *it, uint32_t level, bool at_end) {
    view whole = as_view(&it->records), cut = {whole.bytes, whole.length - 1};
    CHECK(unix_path_entries_scratch(whole.bytes, whole.length) == it->needed, "%s", it->line);
    check_call(it, whole, it->needed, level, it->result, at_end);
    check_call(it, whole, it->needed + 1, level, it->result, at_end);
    if (whole.length > 0) {
        check_call(it, whole, it->needed - 1, level, UNIX_PATH_ENTRIES_NO_ROOM, at_end);
        check_call(it, cut, it->needed, level, UNIX_PATH_ENTRIES_CUT_OFF, at_end);
        check_call(it, cut, 0, level, UNIX_PATH_ENTRIES_CUT_OFF, at_end);
        CHECK(unix_path_entries_scratch(cut.bytes, cut.length) == 0, "%s", it->line);
    }
}

// Reads a row, with its records in `records`. Returns false if it is malformed.
static bool read_row(const char *line, text *records, row *it) {
    view left = view_of(line);
    bool is_inside = same_bytes(take_field(&left), view_of("inside"));
    char answer[64];
    view named = take_field(&left);
    snprintf(answer, sizeof answer, "%.*s", (int)named.length, (const char *)named.bytes);
    *it = (row){line, is_inside ? UNIX_PATH_INSIDE : UNIX_PATH_CLOSED, UNIX_PATH_ENTRIES_ACCEPTED,
                no_refusal, *records, 0};
    char reason[32] = "";
    if (sscanf(answer, "%31s %zu %zu", reason, &it->refusal.entry, &it->refusal.cause) == 3) {
        it->result = UNIX_PATH_ENTRIES_REFUSED;
        it->refusal.reason = reason_of(reason);
    }
    records->length = 0;
    size_t fields = 0;
    while (left.length > 0 || fields % 3 > 0) {
        view field = take_field(&left);
        add(records, field);
        add(records, (view){(const uint8_t *)"", 1});
        it->needed += fields % 3 > 0 ? 0 : same_bytes(field, view_of("h")) ? 2 : 1;
        fields++;
    }
    it->records = *records;
    return it->result == UNIX_PATH_ENTRIES_REFUSED || strcmp(answer, "accepted") == 0;
}

static void ask_rows(void) {
    FILE *file = fopen("tests/entries.txt", "r");
    char line[1024];
    text records = new_text();
    CHECK(file != NULL, "tests/entries.txt");
    while (file != NULL && fgets(line, sizeof line, file) != NULL) {
        line[strcspn(line, "\n")] = '\0';
        row it;
        if (line[0] == '#' || line[0] == '\0') {
            continue;
        }
        CHECK(read_row(line, &records, &it), "%s", line);
        for (int at_end = 0; at_end < 2; at_end++) {
            ask_row(&it, it.level, at_end != 0);
            if (it.level == UNIX_PATH_CLOSED) {
                ask_row(&it, UINT32_MAX, at_end != 0);
            }
        }
    }
    CHECK(file != NULL && !ferror(file) && fclose(file) == 0, "tests/entries.txt");
    free(records.bytes);
}

// Null pointers, to no records and to no slots.
static void nothing(void) {
    unix_path_refusal found = no_refusal;
    unix_path_slot slot;
    CHECK(unix_path_entries_scratch(NULL, 0) == 0, "no records");
    CHECK(unix_path_check_entries(NULL, 0, NULL, 0, UNIX_PATH_INSIDE, &found)
              == UNIX_PATH_ENTRIES_ACCEPTED, "no records");
    CHECK(unix_path_check_entries(NULL, 0, &slot, 1, UNIX_PATH_CLOSED, &found)
              == UNIX_PATH_ENTRIES_ACCEPTED, "no records");
    CHECK(unix_path_check_entries("f\0a\0", 5, NULL, 0, UNIX_PATH_INSIDE, &found)
              == UNIX_PATH_ENTRIES_NO_ROOM, "no slots");
    CHECK(found.entry == SIZE_MAX, "%zu", found.entry);
}

int main(void) {
    records_memory = new_fence(), slots_memory = new_fence();
    run("entries", ask_rows);
    run("nothing", nothing);
    return finish();
}
