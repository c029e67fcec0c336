/* Files in a table of SQLite, by the keys of their paths.
 *
 * SQLite compares BLOBs byte by byte, so all spellings of a path find the same row. A directory and
 * all paths below it are one range of the table, in path order. Renaming a directory changes the
 * prefix of each key in its range.
 *
 *   cc files.c $(pkg-config --cflags --libs unix_path sqlite3) -o files
 *   printf 'put\tsrc//main.rs\tfn main() {}\nlist\tsrc/.\n' | ./files DATABASE
 *
 * It reads lines, with tabs between their fields:
 *
 *   put PATH CONTENT     stores the content, and replaces an old one
 *   get PATH             prints the content, or `none`
 *   list FOLDER          prints the paths that start with FOLDER, in order
 *   rename FOLDER NEW    moves these paths in one transaction, and prints their number; refused if
 *                        NEW has files or starts with FOLDER, or FOLDER is the empty path
 *
 * The exit status is 1 if a line is no such command, or if SQLite fails.
 */
#define _POSIX_C_SOURCE 200809L
#include <sqlite3.h>
#include <stdio.h>
#include <stdlib.h>
#include <string.h>
#include <sys/types.h>
#include <unix_path.h>

/* The maximum length of a path. A key has at most two bytes more, and a path at most twice as many
 * bytes as its key. */
enum { LONGEST = 4096, ROOM = 2 * (LONGEST + 2) };

/* The bytes of a path or of a key. */
typedef struct {
    uint8_t bytes[ROOM];
    size_t length;
} text;

static sqlite3 *database;

static void fail(const char *why) {
    fprintf(stderr, "files: %s\n", why);
    exit(1);
}

/* Ends the program unless SQLite returned this status. */
static void expect(int answer, int wanted) {
    if (answer != wanted) fail(sqlite3_errmsg(database));
}

static void execute(const char *statement) {
    expect(sqlite3_exec(database, statement, NULL, NULL, NULL), SQLITE_OK);
}

static text key_of(const char *path) {
    text key;
    key.length = unix_path_key((const uint8_t *)path, strlen(path), key.bytes, ROOM);
    if (key.length > ROOM) fail("a path is too long");
    return key;
}

static sqlite3_stmt *prepare(const char *statement) {
    sqlite3_stmt *made;
    expect(sqlite3_prepare_v2(database, statement, -1, &made, NULL), SQLITE_OK);
    return made;
}

static void bind(sqlite3_stmt *statement, int place, const void *bytes, size_t length) {
    expect(sqlite3_bind_blob(statement, place, bytes, (int)length, SQLITE_TRANSIENT), SQLITE_OK);
}

/* Runs a statement that returns no row. */
static void run(sqlite3_stmt *statement) {
    expect(sqlite3_step(statement), SQLITE_DONE);
    expect(sqlite3_finalize(statement), SQLITE_OK);
}

/* Returns a statement whose ?1 and ?2 are the start and the end of the range of a directory's key.
 * This is `ended`, or `endless`, which has no ?2, if the range has no end. */
static sqlite3_stmt *over_range(const text *key, const char *ended, const char *endless) {
    uint8_t end[ROOM];
    size_t length = unix_path_key_range_end(key->bytes, key->length, end, ROOM);
    sqlite3_stmt *made = prepare(length == UNIX_PATH_NO_END ? endless : ended);
    bind(made, 1, key->bytes, key->length);
    if (length != UNIX_PATH_NO_END) bind(made, 2, end, length);
    return made;
}

static void put(const char *path, const char *content) {
    text key = key_of(path);
    sqlite3_stmt *insert = prepare("INSERT OR REPLACE INTO file VALUES (?1, ?2)");
    bind(insert, 1, key.bytes, key.length);
    bind(insert, 2, content, strlen(content));
    run(insert);
}

/* Returns the column of the statement's row, and sets its length. SQLite has NULL for no bytes,
 * which no call of the library accepts. */
static const void *column_of(sqlite3_stmt *statement, size_t *length) {
    const void *bytes = sqlite3_column_blob(statement, 0);
    *length = (size_t)sqlite3_column_bytes(statement, 0);
    return *length == 0 ? "" : bytes;
}

static void print_line(const void *bytes, size_t length) {
    fwrite(bytes, 1, length, stdout);
    putchar('\n');
}

static void get(const char *path) {
    text key = key_of(path);
    sqlite3_stmt *find = prepare("SELECT content FROM file WHERE key = ?1");
    bind(find, 1, key.bytes, key.length);
    if (sqlite3_step(find) == SQLITE_ROW) {
        size_t length;
        const void *content = column_of(find, &length);
        print_line(content, length);
        expect(sqlite3_step(find), SQLITE_DONE);
    } else {
        puts("none");
    }
    expect(sqlite3_finalize(find), SQLITE_OK);
}

/* Prints the path of the key in the statement's row. */
static void print_path(sqlite3_stmt *statement) {
    text path;
    size_t length;
    const void *key = column_of(statement, &length);
    path.length = unix_path_from_key(key, length, path.bytes, ROOM);
    if (path.length > ROOM) fail("the table has a key that put never makes");
    print_line(path.bytes, path.length);
}

static void list(const char *folder) {
    text key = key_of(folder);
    sqlite3_stmt *rows = over_range(
        &key, "SELECT key FROM file WHERE key >= ?1 AND key < ?2 ORDER BY key",
        "SELECT key FROM file WHERE key >= ?1 ORDER BY key");
    int answer;
    while ((answer = sqlite3_step(rows)) == SQLITE_ROW) print_path(rows);
    expect(answer, SQLITE_DONE);
    expect(sqlite3_finalize(rows), SQLITE_OK);
}

/* In SQL `moved(key, length, start)`: returns the start followed by the key without its first
 * `length` bytes. This is the key of the moved path, since what follows a directory's key in
 * another key is the key of the rest of the path. */
static void moved(sqlite3_context *context, int count, sqlite3_value **values) {
    (void)count;
    size_t cut = (size_t)sqlite3_value_int64(values[1]);
    size_t left = (size_t)sqlite3_value_bytes(values[0]) - cut;
    size_t start = (size_t)sqlite3_value_bytes(values[2]);
    uint8_t *key = sqlite3_malloc64(start + left + 1);
    if (key == NULL) {
        sqlite3_result_error_nomem(context);
        return;
    }
    if (start > 0) memcpy(key, sqlite3_value_blob(values[2]), start);
    if (left > 0) memcpy(key + start, (const uint8_t *)sqlite3_value_blob(values[0]) + cut, left);
    sqlite3_result_blob64(context, key, start + left, sqlite3_free);
}

static bool is_empty(const text *key) {
    sqlite3_stmt *rows = over_range(key, "SELECT 1 FROM file WHERE key >= ?1 AND key < ?2 LIMIT 1",
                                    "SELECT 1 FROM file WHERE key >= ?1 LIMIT 1");
    bool is_found = sqlite3_step(rows) == SQLITE_ROW;
    expect(sqlite3_finalize(rows), SQLITE_OK);
    return !is_found;
}

/* Moves the files of a directory whose key is not empty. */
static void move_range(const text *from, const text *to) {
    sqlite3_stmt *update = over_range(
        from, "UPDATE file SET key = moved(key, ?3, ?4) WHERE key >= ?1 AND key < ?2", "");
    expect(sqlite3_bind_int64(update, 3, (sqlite3_int64)from->length), SQLITE_OK);
    bind(update, 4, to->bytes, to->length);
    run(update);
}

static void rename_folder(const char *folder, const char *new_name) {
    text from = key_of(folder), to = key_of(new_name);
    bool is_below = unix_path_starts_with((const uint8_t *)new_name, strlen(new_name),
                                          (const uint8_t *)folder, strlen(folder));
    execute("BEGIN IMMEDIATE");
    if (from.length == 0 || is_below || !is_empty(&to)) {
        execute("ROLLBACK");
        puts("refused");
        return;
    }
    move_range(&from, &to);
    printf("%d\n", sqlite3_changes(database));
    execute("COMMIT");
}

/* Executes a line. Returns false if it is no command. */
static bool answer(char *line) {
    const char *command = strtok(line, "\t"), *path = strtok(NULL, "\t");
    const char *other = strtok(NULL, "\t");
    if (command == NULL) return false;
    if (strcmp(command, "list") == 0) return list(path == NULL ? "" : path), other == NULL;
    if (path == NULL) return false;
    if (strcmp(command, "get") == 0) return get(path), other == NULL;
    if (other == NULL) return false;
    if (strcmp(command, "put") == 0) return put(path, other), true;
    if (strcmp(command, "rename") == 0) return rename_folder(path, other), true;
    return false;
}

static void open_database(const char *name) {
    expect(sqlite3_open(name, &database), SQLITE_OK);
    execute("CREATE TABLE IF NOT EXISTS file"
            " (key BLOB NOT NULL PRIMARY KEY, content BLOB NOT NULL) WITHOUT ROWID");
    int flags = SQLITE_UTF8 | SQLITE_DETERMINISTIC;
    expect(sqlite3_create_function(database, "moved", 3, flags, NULL, moved, NULL, NULL),
           SQLITE_OK);
}

int main(int count, char **words) {
    char *line = NULL;
    size_t space = 0;
    ssize_t length;
    if (count != 2) fail("names no database");
    open_database(words[1]);
    while ((length = getline(&line, &space, stdin)) > 0) {
        if (line[length - 1] == '\n') line[length - 1] = '\0';
        if (!answer(line)) fail("a line says nothing that is known");
    }
    free(line);
    expect(sqlite3_close(database), SQLITE_OK);
    return fflush(stdout) != 0;
}
