/* Bloom filters in SQLite: the module `bloom`, whose tables are blocked filters in the database,
 * and functions on filters in BLOBs, which have the form of the library's files.
 *
 * A text or a BLOB is hashed by its bytes, a text as UTF-8 in every database. An integer is hashed
 * by its decimal text, and so is a real that is an integer: 5, 5.0 and '5' are one item, as lines
 * are to the programs. Another real is hashed by its eight bytes. NULL is never in a filter.
 *
 * A table NAME has a shadow table NAME_data: row 0 has the head of the library's file, and each row
 * from 1 on has 63 lines, which fit a page of 4096 bytes. The rows in order are the file, but for
 * its seal. All are written when the table is made, so a row that is missing is damage, and never
 * means that an item is absent. Memory keeps only the head. So transactions, savepoints, crashes
 * and copies are SQLite's. The library says which line a hash has, and which bits there. */
#include <sqlite3ext.h>
SQLITE_EXTENSION_INIT1
#include "fastbloom.h"

#include <stdarg.h>
#include <stdio.h>
#include <string.h>
#include <sys/random.h>

/* Bytes of a file's head, of a line and of a key; words of a line; lines in a row, and in a table
 * at most: 64 GiB. */
enum { HEAD = 64, LINE = 64, KEY = 16, WORDS = 8, LINES = 63, MOST = 1 << 30 };
enum { COLUMN_ITEM, COLUMN_INFO, COLUMN_FILE };

/* The hash of an item. It returns 1, or 0 for NULL, or -1 where there is no memory. */
static int hash_of(sqlite3_value *item, const uint8_t key[KEY], uint64_t *hash) {
    int type = sqlite3_value_type(item);
    char number[24];
    const void *bytes = number;
    size_t len;
    if (type == SQLITE_NULL) return 0;
    if (type == SQLITE_TEXT || type == SQLITE_BLOB) {
        bytes = type == SQLITE_TEXT ? sqlite3_value_text(item) : sqlite3_value_blob(item);
        len = (size_t)sqlite3_value_bytes(item);
        if (bytes == NULL && (type == SQLITE_TEXT || len > 0)) return -1; /* (x'' is NULL, too) */
    } else {
        sqlite3_int64 integer = sqlite3_value_int64(item);
        double real = sqlite3_value_double(item);
        bool is_integer = type == SQLITE_INTEGER || ((double)integer == real && real < 0x1p63);
        len = is_integer ? strlen(sqlite3_snprintf(sizeof number, number, "%lld", integer))
                         : sizeof real;
        if (!is_integer) memcpy(number, &real, len);
    }
    *hash = fastbloom_hash(key, bytes, len);
    return 1;
}

/* The size and key of a filter, and its file where that is in memory. */
typedef struct filter {
    size_t num_words;
    uint32_t num_hashes;
    uint8_t key[KEY], *file;
} filter;

/* Reads digits, and returns where they end, or NULL where there are too many. No digits are 0. */
static const char *read_number(const char *text, uint64_t *number) {
    const char *end = text;
    for (*number = 0; *end >= '0' && *end <= '9'; end++) {
        if (*number > (UINT64_MAX - 9) / 10) return NULL;
        *number = *number * 10 + (uint64_t)(*end - '0');
    }
    return end;
}

/* The size for so many items at a rate like 1/1000. It returns NULL, or what is wrong. */
static const char *plan(uint64_t items, const char *rate, filter *f) {
    uint64_t num, den = 0;
    const char *end = rate == NULL ? NULL : read_number(rate, &num);
    end = end == NULL || *end != '/' ? NULL : read_number(end + 1, &den);
    if (items == 0) return "the number of items is a whole number from 1 on";
    if (end == NULL || *end != 0 || num == 0 || num >= den)
        return "the rate is a text like '1/1000'";
    uint8_t code = fastbloom_blocked_plan(num, den, items, &f->num_words, &f->num_hashes);
    if (code == FASTBLOOM_OK && f->num_words / WORDS > MOST) return "more than 64 GiB";
    return code == FASTBLOOM_OK ? NULL : fastbloom_strerror(code);
}

/* Reads a head, and returns FASTBLOOM_OK, or the reason why it is refused. */
static uint8_t read_head(const uint8_t *head, filter *f, uint64_t *seal) {
    uint8_t code = fastbloom_blocked_head_read(head, &f->num_words, &f->num_hashes, f->key, seal);
    if (code != FASTBLOOM_OK) return code;
    if (f->num_words / WORDS > MOST) return FASTBLOOM_TOO_MANY_WORDS;
    return f->num_hashes > FASTBLOOM_USUAL_HASHES ? FASTBLOOM_TOO_MANY_HASHES : FASTBLOOM_OK;
}

/* Whether a file has no seal, or the right one. (Its words may lie anywhere.) */
static bool is_sealed(const uint8_t *file, size_t len, uint64_t seal) {
    static const uint8_t zeros[KEY];
    fastbloom_hasher hasher;
    fastbloom_hasher_init(&hasher, zeros);
    fastbloom_hasher_update(&hasher, file, 40);
    fastbloom_hasher_update(&hasher, file + 48, 8);
    fastbloom_hasher_update(&hasher, file + HEAD, len - HEAD);
    return seal == 0 || seal == fastbloom_hasher_finish(&hasher);
}

/* Reads the file in a value, and returns FASTBLOOM_OK, or the reason why it is refused. */
static uint8_t read_file(sqlite3_value *value, bool is_checked, filter *f) {
    bool is_blob = sqlite3_value_type(value) == SQLITE_BLOB;
    f->file = is_blob ? (void *)sqlite3_value_blob(value) : NULL;
    size_t len = is_blob ? (size_t)sqlite3_value_bytes(value) : 0;
    uint64_t seal;
    if (f->file == NULL && len > 0) return FASTBLOOM_MEMORY;
    uint8_t code = len < HEAD ? FASTBLOOM_NOT_A_FILTER : read_head(f->file, f, &seal);
    if (code != FASTBLOOM_OK) return code;
    if (f->num_words > (len - HEAD) / 8) return FASTBLOOM_CUT;
    if (f->num_words * 8 < len - HEAD) return FASTBLOOM_TOO_LONG;
    return is_checked || is_sealed(f->file, len, seal) ? FASTBLOOM_OK : FASTBLOOM_SEAL;
}

/* Returns the file of a filter, sealed, and frees it. */
static void result_file(sqlite3_context *context, const filter *f) {
    const uint64_t *words = (const void *)(f->file + HEAD);
    uint64_t seal = fastbloom_blocked_seal(words, f->num_words, f->num_hashes, f->key);
    (void)!fastbloom_blocked_head_write(f->num_words, f->num_hashes, f->key, seal, f->file);
    sqlite3_result_blob64(context, f->file, HEAD + 8 * f->num_words, sqlite3_free);
}

/* Fails for a reason, or for want of memory where that is NULL. */
static void fail(sqlite3_context *context, int code, const char *why) {
    char *text = why == NULL ? NULL : sqlite3_mprintf("bloom: %s", why);
    if (text != NULL) sqlite3_result_error(context, text, -1);
    if (text != NULL) sqlite3_result_error_code(context, code);
    if (text == NULL) sqlite3_result_error_nomem(context);
    sqlite3_free(text);
}

/* Asks for memory for the file of a filter, or fails. */
static bool make_file(sqlite3_context *context, filter *f) {
    static const char format[] = "a file of %llu bytes is too big: SQLITE_LIMIT_LENGTH is %d";
    const sqlite3_uint64 len = HEAD + 8 * f->num_words;
    const int most = sqlite3_limit(sqlite3_context_db_handle(context), SQLITE_LIMIT_LENGTH, -1);
    const bool fits = len <= (sqlite3_uint64)most;
    char why[sizeof format + 24];
    f->file = fits ? sqlite3_malloc64(len) : NULL;
    if (f->file != NULL) return true;
    sqlite3_snprintf(sizeof why, why, format, len, most);
    fail(context, SQLITE_TOOBIG, fits ? NULL : why);
    return false;
}

/* Begins the filter that the first row of an aggregate asks for, or fails. */
static void begin_file(sqlite3_context *context, int argc, sqlite3_value **argv, filter *f) {
    bool is_number = sqlite3_value_numeric_type(argv[1]) == SQLITE_INTEGER;
    sqlite3_int64 items = is_number ? sqlite3_value_int64(argv[1]) : 0;
    const void *rate = sqlite3_value_text(argv[2]);
    const void *key = argc == 4 ? sqlite3_value_blob(argv[3]) : f->key;
    const char *why = plan(items < 0 ? 0 : (uint64_t)items, rate, f);
    if (argc == 4 && sqlite3_value_bytes(argv[3]) != KEY) why = "the key is a BLOB of 16 bytes";
    if (why != NULL || key == NULL) fail(context, SQLITE_ERROR, why);
    if (why != NULL || key == NULL || !make_file(context, f)) return;
    memmove(f->key, key, KEY);
    memset(f->file, 0, HEAD + 8 * f->num_words);
}

/* bloom(item, items, rate [, key]): the file with all items. */
static void bloom_step(sqlite3_context *context, int argc, sqlite3_value **argv) {
    filter *f = sqlite3_aggregate_context(context, sizeof *f);
    uint64_t hash;
    if (f != NULL && f->file == NULL) begin_file(context, argc, argv, f);
    if (f != NULL && f->file == NULL) return;
    int known = f == NULL ? -1 : hash_of(argv[0], f->key, &hash);
    if (known < 0) fail(context, SQLITE_NOMEM, NULL);
    if (known <= 0) return;
    fastbloom_blocked_insert_hash((void *)(f->file + HEAD), f->num_words, f->num_hashes, hash);
}

static void bloom_final(sqlite3_context *context) {
    filter *f = sqlite3_aggregate_context(context, 0);
    if (f != NULL && f->file != NULL) result_file(context, f);
}

/* Whether the file in a value contains an item. */
static void look_up(sqlite3_context *context, sqlite3_value *value, bool is_checked,
                    sqlite3_value *item) {
    uint64_t hash, line[WORDS];
    filter f;
    uint8_t code = read_file(value, is_checked, &f);
    int known = code == FASTBLOOM_OK ? hash_of(item, f.key, &hash) : 0;
    bool is_full = known < 0 || code == FASTBLOOM_MEMORY;
    if (is_full || code != FASTBLOOM_OK)
        fail(context, SQLITE_ERROR, is_full ? NULL : fastbloom_strerror(code));
    if (is_full || code != FASTBLOOM_OK) return;
    if (known > 0) {
        memcpy(line, f.file + HEAD + LINE * fastbloom_blocked_line(f.num_words, hash), LINE);
        known = fastbloom_blocked_contains_hash(line, WORDS, f.num_hashes, hash);
    }
    sqlite3_result_int(context, known);
}

/* bloom_contains(file, item). The seal is checked once where the file is the same for all rows, as
 * a bound parameter is. */
static void contains(sqlite3_context *context, int argc, sqlite3_value **argv) {
    static char checked;
    if (argc != 2 || sqlite3_value_type(argv[0]) == SQLITE_NULL) return;
    look_up(context, argv[0], sqlite3_get_auxdata(context, 0) != NULL, argv[1]);
    sqlite3_set_auxdata(context, 0, &checked, NULL);
}

static void free_value(void *value) { sqlite3_value_free(value); }

/* bloom_in(table, item), with a name like 'seen' or 'main.seen'. Where it is the same for all rows,
 * the filter is read once, as it is at the first of them. */
static void in(sqlite3_context *context, int argc, sqlite3_value **argv) {
    sqlite3 *db = sqlite3_context_db_handle(context);
    const char *name = (const void *)sqlite3_value_text(argv[0]),
               *dot = strchr(name ? name : "", '.');
    sqlite3_value *file = sqlite3_get_auxdata(context, 0);
    sqlite3_stmt *read = NULL;
    if (argc == 2 && file != NULL) look_up(context, file, true, argv[1]);
    if (file != NULL || name == NULL) return;
    char *sql = sqlite3_mprintf("SELECT file FROM \"%.*w%s%w\"", dot ? (int)(dot - name) : 0, name,
                                dot ? "\".\"" : "", dot ? dot + 1 : name);
    int code = sql == NULL ? SQLITE_NOMEM : sqlite3_prepare_v2(db, sql, -1, &read, NULL);
    sqlite3_free(sql);
    if (code == SQLITE_OK) code = sqlite3_step(read);
    if (code == SQLITE_ROW) file = sqlite3_value_dup(sqlite3_column_value(read, 0));
    bool is_full = code == SQLITE_NOMEM || (code == SQLITE_ROW && file == NULL);
    if (file != NULL) look_up(context, file, false, argv[1]);
    if (file != NULL) sqlite3_set_auxdata(context, 0, file, free_value);
    if (code == SQLITE_DONE) code = SQLITE_ERROR;
    const char *why = sqlite3_errmsg(db);
    if (strncmp(why, "bloom: ", 7) == 0) why += 7; /* (as it is told by `fail`) */
    if (file == NULL) fail(context, code, is_full ? NULL : why);
    sqlite3_finalize(read);
}

typedef struct table {
    sqlite3_vtab base;
    sqlite3 *db;
    char *schema, *shadow, *quoted; /* the names of schema and shadow table, and both in SQL */
    sqlite3_blob *bits; /* the row that was looked into last; closed with the last cursor */
    size_t cursors;
    uint64_t items, row[LINES * WORDS], other[LINES * WORDS];
    filter f; /* it has no words until the head was read */
} table;

/* It looks an item up, or has a row about the filter, or refuses. */
enum { LOOK_UP, ABOUT, LIST };

typedef struct cursor {
    sqlite3_vtab_cursor base;
    bool has_row;
    sqlite3_value *item;
    uint64_t hash; /* the row's number: SQLite takes rows of one number for one row */
} cursor;

static int refuse(table *t, const char *why) {
    sqlite3_free(t->base.zErrMsg);
    t->base.zErrMsg = sqlite3_mprintf("bloom: %s", why);
    return SQLITE_ERROR;
}

static int refuse_row(table *t, sqlite3_int64 row) {
    sqlite3_free(t->base.zErrMsg);
    t->base.zErrMsg =
        sqlite3_mprintf("bloom: row %lld of %s is damaged: make the table anew", row, t->shadow);
    return SQLITE_CORRUPT_VTAB;
}

/* Runs a statement that a format makes. */
static int run(sqlite3 *db, const char *format, ...) {
    va_list arguments;
    va_start(arguments, format);
    char *sql = sqlite3_vmprintf(format, arguments);
    va_end(arguments);
    int code = sql == NULL ? SQLITE_NOMEM : sqlite3_exec(db, sql, NULL, NULL, NULL);
    sqlite3_free(sql);
    return code;
}

/* The bytes of a row: 0 behind the last one. */
static size_t bytes_of(const table *t, sqlite3_int64 row) {
    size_t lines = t->f.num_words / WORDS, before = ((size_t)row - 1) * LINES;
    if (row == 0) return HEAD;
    return before >= lines ? 0 : LINE * (lines - before < LINES ? lines - before : LINES);
}

/* Opens a row to read or write there, or moves a handle to it. SQLite refuses a view or a virtual
 * table here, which might read this table in turn. A handle that writes doesn't stay open behind an
 * insert, where it would be in the way of COMMIT. */
static int open_row(table *t, sqlite3_int64 row, bool writes, sqlite3_blob **bits) {
    int code = *bits != NULL
                   ? sqlite3_blob_reopen(*bits, row)
                   : sqlite3_blob_open(t->db, t->schema, t->shadow, "bits", row, writes, bits);
    bool is_wrong = code == SQLITE_OK && (size_t)sqlite3_blob_bytes(*bits) != bytes_of(t, row);
    return is_wrong || code == SQLITE_ERROR ? refuse_row(t, row) : code;
}

static int close_row(sqlite3_blob *bits, int code) {
    int closed = sqlite3_blob_close(bits);
    return code != SQLITE_OK ? code : closed;
}

/* Copies a part of a row. */
static int read_part(table *t, sqlite3_int64 row, size_t from, size_t len, void *to) {
    sqlite3_blob *bits = NULL;
    int code = open_row(t, row, false, &bits);
    if (code == SQLITE_OK) code = sqlite3_blob_read(bits, to, (int)len, (int)from);
    return close_row(bits, code);
}

/* Reads the head, once. */
static int need_head(table *t) {
    uint8_t head[HEAD];
    uint64_t seal;
    if (t->f.num_words > 0) return SQLITE_OK;
    int code = read_part(t, 0, 0, HEAD, head);
    if (code != SQLITE_OK || read_head(head, &t->f, &seal) == FASTBLOOM_OK) return code;
    t->f.num_words = 0;
    return refuse_row(t, 0);
}

/* The row with the line of a hash, and where the line begins there. */
static sqlite3_int64 row_of(const table *t, uint64_t hash, size_t *from) {
    size_t line = fastbloom_blocked_line(t->f.num_words, hash);
    *from = LINE * (line % LINES);
    return (sqlite3_int64)(line / LINES + 1);
}

static int disconnect(sqlite3_vtab *base) {
    table *t = (table *)base;
    sqlite3_free(t->schema);
    sqlite3_free(t->shadow);
    sqlite3_free(t->quoted);
    sqlite3_free(t->base.zErrMsg);
    sqlite3_free(t);
    return SQLITE_OK;
}

/* A view in the shadow table's place is dropped, too. What SQLite can't drop there, such as a table
 * of a module that isn't loaded, stays, and is in the way of a new filter by its name. */
static int destroy(sqlite3_vtab *base) {
    table *t = (table *)base;
    int code = run(t->db, "DROP TABLE IF EXISTS %s", t->quoted);
    if (code == SQLITE_ERROR) code = run(t->db, "DROP VIEW IF EXISTS %s", t->quoted);
    return code == SQLITE_OK || code == SQLITE_ERROR ? disconnect(base) : code;
}

/* Reads 32 hexadecimal digits. */
static bool read_key(const char *text, uint8_t key[KEY]) {
    size_t digits = strspn(text, "0123456789abcdefABCDEF");
    for (int i = 0; i < KEY && digits == 2 * KEY; i++) sscanf(text + 2 * i, "%2hhx", key + i);
    return digits == 2 * KEY && text[digits] == 0;
}

/* Reads the arguments of CREATE VIRTUAL TABLE. It returns NULL, or what is wrong. */
static const char *read_arguments(int argc, const char *const *argv, uint64_t *items, filter *f) {
    static const char usage[] = "write bloom(items=N, rate='1/N' [, key='HEX' | key=random])";
    static const char *const names[] = {"items=", "rate=", "key="};
    static const int lengths[] = {6, 5, 4};
    enum { ITEMS, RATE, KEYS, NAMES };
    bool was_given[NAMES] = {false}, is_repeated = false;
    char rate[64] = "", given[64];
    for (int i = 3; i < argc; i++) {
        size_t len = 0;
        for (const char *from = argv[i]; *from != 0 && len < sizeof given; from++)
            if (strchr(" \t\r\n'\"", *from) == NULL) given[len++] = *from;
        if (len == sizeof given) return usage;
        given[len] = 0;
        int name = 0;
        while (name < NAMES && sqlite3_strnicmp(given, names[name], lengths[name]) != 0) name++;
        if (name == NAMES) return usage;
        const char *value = given + lengths[name];
        is_repeated |= was_given[name];
        was_given[name] = true;
        if (name == ITEMS && read_number(value, items) != given + len) *items = 0;
        if (name == RATE) strcpy(rate, value);
        if (name == KEYS && sqlite3_stricmp(value, "random") == 0) {
            if (getrandom(f->key, KEY, 0) != KEY) return "the system has no random bytes";
        } else if (name == KEYS && !read_key(value, f->key)) {
            return usage;
        }
    }
    return is_repeated ? "an argument is repeated" : plan(*items, rate, f);
}

/* Writes the empty filter, row by row. */
static int write_empty(table *t) {
    static const char insert[] = "INSERT INTO %s VALUES(%lld, zeroblob(%d))";
    uint8_t head[HEAD];
    sqlite3_blob *bits = NULL;
    int len, code = run(t->db, "CREATE TABLE %s(page INTEGER PRIMARY KEY, bits BLOB)", t->quoted);
    for (sqlite3_int64 row = 0; code == SQLITE_OK && (len = (int)bytes_of(t, row)) > 0; row++)
        code = run(t->db, insert, t->quoted, row, len);
    (void)!fastbloom_blocked_head_write(t->f.num_words, t->f.num_hashes, t->f.key, 0, head);
    if (code == SQLITE_OK) code = open_row(t, 0, true, &bits);
    if (code == SQLITE_OK) code = sqlite3_blob_write(bits, head, HEAD, 0);
    return close_row(bits, code);
}

/* Opens a table, or makes it, and reads nothing, so that a damaged one can be dropped. */
static int open_table(sqlite3 *db, void *is_new, int argc, const char *const *argv,
                      sqlite3_vtab **base, char **error) {
    table *t = sqlite3_malloc64(sizeof *t);
    if (t == NULL) return SQLITE_NOMEM;
    memset(t, 0, sizeof *t);
    t->db = db;
    t->schema = sqlite3_mprintf("%s", argv[1]);
    t->shadow = sqlite3_mprintf("%s_data", argv[2]);
    t->quoted = sqlite3_mprintf("\"%w\".\"%w\"", t->schema, t->shadow);
    const char *why = read_arguments(argc, argv, &t->items, &t->f);
    if (is_new == NULL) t->f.num_words = 0, why = NULL;
    int code = t->schema && t->shadow && t->quoted ? SQLITE_OK : SQLITE_NOMEM;
    if (!code) code = sqlite3_declare_vtab(db, "CREATE TABLE x(item, info HIDDEN, file HIDDEN)");
    if (!code && why != NULL) code = SQLITE_ERROR;
    if (!code && is_new != NULL && (code = write_empty(t))) why = sqlite3_errmsg(db);
    sqlite3_vtab_config(db, SQLITE_VTAB_CONSTRAINT_SUPPORT, 1);
    sqlite3_vtab_config(db, SQLITE_VTAB_INNOCUOUS);
    if (code) *error = sqlite3_mprintf("bloom: %s", why != NULL ? why : sqlite3_errstr(code));
    if (code)
        disconnect(&t->base);
    else
        *base = &t->base;
    return code;
}

static int create_table(sqlite3 *db, void *aux, int argc, const char *const *argv,
                        sqlite3_vtab **base, char **error) {
    return open_table(db, &aux, argc, argv, base, error);
}

/* A look-up of an item, by = or IN; or a row about the filter, where its items aren't asked for. */
static int best_index(sqlite3_vtab *base, sqlite3_index_info *info) {
    int code = SQLITE_OK;
    (void)base;
    info->idxNum = info->colUsed != 0 && (info->colUsed & 1 << COLUMN_ITEM) == 0 ? ABOUT : LIST;
    info->estimatedCost = 1e12;
    for (int i = 0; i < info->nConstraint && info->idxNum != LOOK_UP; i++) {
        const struct sqlite3_index_constraint *c = &info->aConstraint[i];
        if (c->iColumn != COLUMN_ITEM) continue;
        if (c->op != SQLITE_INDEX_CONSTRAINT_EQ && c->op != SQLITE_INDEX_CONSTRAINT_IS) continue;
        if (sqlite3_stricmp(sqlite3_vtab_collation(info, i), "BINARY") != 0) continue;
        code = c->usable ? SQLITE_OK : SQLITE_CONSTRAINT; /* (another order of the join) */
        if (!c->usable) continue;
        info->aConstraintUsage[i].argvIndex = info->aConstraintUsage[i].omit = 1;
        info->idxNum = LOOK_UP;
        info->idxFlags = SQLITE_INDEX_SCAN_UNIQUE;
        info->estimatedCost = 2;
        info->estimatedRows = 1;
    }
    return code;
}

static int open_cursor(sqlite3_vtab *base, sqlite3_vtab_cursor **made) {
    cursor *c = sqlite3_malloc64(sizeof *c);
    if (c == NULL) return SQLITE_NOMEM;
    *made = memset(c, 0, sizeof *c);
    ((table *)base)->cursors++;
    return SQLITE_OK;
}

static int close_cursor(sqlite3_vtab_cursor *base) {
    table *t = (table *)base->pVtab;
    if (--t->cursors == 0) {
        sqlite3_blob_close(t->bits);
        t->bits = NULL;
    }
    sqlite3_value_free(((cursor *)base)->item);
    sqlite3_free(base);
    return SQLITE_OK;
}

static int begin(sqlite3_vtab_cursor *base, int what, const char *text, int argc,
                 sqlite3_value **argv) {
    cursor *c = (cursor *)base;
    table *t = (table *)base->pVtab;
    uint64_t line[WORDS];
    size_t from;
    (void)text, (void)argc;
    sqlite3_value_free(c->item);
    c->item = NULL, c->has_row = what == ABOUT;
    if (what == LIST) return refuse(t, "a filter answers only WHERE item = .. COLLATE BINARY");
    int code = need_head(t);
    if (code != SQLITE_OK || what == ABOUT) return code;
    int known = hash_of(argv[0], t->f.key, &c->hash);
    if (known <= 0) return known == 0 ? SQLITE_OK : SQLITE_NOMEM;
    sqlite3_int64 row = row_of(t, c->hash, &from);
    code = open_row(t, row, false, &t->bits);
    if ((code & 255) == SQLITE_ABORT) { /* an error or a rollback has ended the handle */
        sqlite3_blob_close(t->bits);
        t->bits = NULL;
        code = open_row(t, row, false, &t->bits);
    }
    if (code == SQLITE_OK) code = sqlite3_blob_read(t->bits, line, LINE, (int)from);
    if (code != SQLITE_OK) return code;
    c->has_row = fastbloom_blocked_contains_hash(line, WORDS, t->f.num_hashes, c->hash);
    return c->has_row && (c->item = sqlite3_value_dup(argv[0])) == NULL ? SQLITE_NOMEM : SQLITE_OK;
}

static int next(sqlite3_vtab_cursor *base) {
    ((cursor *)base)->has_row = false;
    return SQLITE_OK;
}

static int at_end(sqlite3_vtab_cursor *base) { return !((cursor *)base)->has_row; }

/* About how many items set so many bits: the most that are expected to set no more, or 1. */
static uint64_t estimate(const filter *f, uint64_t ones) {
    const long double lines = (long double)(f->num_words / WORDS), bits = 8 * LINE;
    const long double share = (long double)ones / bits / lines;
    /* The part of all bits that is set after one item, after two, after four and so on. */
    long double set[64], clear = 1, now = 0;
    uint64_t items = 0;
    for (uint32_t i = 0; i < f->num_hashes; i++) clear *= (bits - 1) / bits;
    set[0] = (1 - clear) / lines;
    for (int i = 1; i < 64; i++) set[i] = set[i - 1] * (2 - set[i - 1]);
    for (int i = 63; i >= 0; i--) {
        const long double more = now + set[i] * (1 - now);
        if (more > share) continue;
        now = more;
        items += (uint64_t)1 << i;
    }
    return items == 0 && ones > 0 ? 1 : items;
}

/* Tells about how many items there are, or null where each bit is set, and the rate of false
 * positives now, both as the library does. It reads one row after the other. */
static int result_info(sqlite3_context *context, table *t) {
    static const char json[] = "{\"items\":%llu,\"estimate\":%s,\"rate\":%.6g}";
    char about[24] = "null";
    uint64_t ones = 0, from, to;
    double rate = 0;
    sqlite3_blob *bits = NULL;
    size_t len;
    int code = SQLITE_OK;
    for (sqlite3_int64 row = 1; code == SQLITE_OK && (len = bytes_of(t, row)) > 0; row++) {
        code = open_row(t, row, false, &bits);
        if (code == SQLITE_OK) code = sqlite3_blob_read(bits, t->row, (int)len, 0);
        if (code != SQLITE_OK) break;
        ones += fastbloom_count_ones(t->row, len / 8);
        (void)!fastbloom_blocked_rate_now(t->row, len / 8, t->f.num_hashes, &from, &to);
        rate += (double)to * (double)(len / 8) / (double)t->f.num_words;
    }
    code = close_row(bits, code);
    if (code != SQLITE_OK) return code;
    if (ones < 64 * t->f.num_words)
        sqlite3_snprintf(sizeof about, about, "%llu", estimate(&t->f, ones));
    char *text = sqlite3_mprintf(json, t->items, about, rate / 0x1p63);
    if (text == NULL) return SQLITE_NOMEM;
    sqlite3_result_text(context, text, -1, sqlite3_free);
    return SQLITE_OK;
}

/* Returns the file of all rows. */
static int result_rows(sqlite3_context *context, table *t) {
    filter f = t->f;
    sqlite3_blob *bits = NULL;
    size_t len, at = HEAD;
    int code = SQLITE_OK;
    if (!make_file(context, &f)) return SQLITE_OK; /* (SQLite sees that the value failed) */
    for (sqlite3_int64 row = 1; code == SQLITE_OK && (len = bytes_of(t, row)) > 0; row++) {
        code = open_row(t, row, false, &bits);
        if (code == SQLITE_OK) code = sqlite3_blob_read(bits, f.file + at, (int)len, 0);
        at += len;
    }
    code = close_row(bits, code);
    if (code == SQLITE_OK)
        result_file(context, &f);
    else
        sqlite3_free(f.file);
    return code;
}

static int column(sqlite3_vtab_cursor *base, sqlite3_context *context, int number) {
    cursor *c = (cursor *)base;
    table *t = (table *)base->pVtab;
    if (number == COLUMN_INFO) return result_info(context, t);
    if (number == COLUMN_FILE) return result_rows(context, t);
    if (c->item != NULL) sqlite3_result_value(context, c->item);
    return SQLITE_OK;
}

static int row_id(sqlite3_vtab_cursor *base, sqlite3_int64 *id) {
    *id = (sqlite3_int64)((cursor *)base)->hash;
    return SQLITE_OK;
}

static int insert_hash(table *t, uint64_t hash, bool *is_new) {
    uint64_t line[WORDS];
    size_t from;
    sqlite3_int64 row = row_of(t, hash, &from);
    sqlite3_blob *bits = NULL;
    int code = open_row(t, row, true, &bits);
    if (code == SQLITE_OK) code = sqlite3_blob_read(bits, line, LINE, (int)from);
    *is_new =
        code == SQLITE_OK && !fastbloom_blocked_insert_hash(line, WORDS, t->f.num_hashes, hash);
    if (*is_new) code = sqlite3_blob_write(bits, line, LINE, (int)from);
    return close_row(bits, code);
}

/* INSERT INTO seen(file): the union with a filter of the same size and key. */
static int insert_file(table *t, sqlite3_value *value) {
    filter f;
    size_t len, at = HEAD;
    sqlite3_blob *bits = NULL;
    uint8_t why = read_file(value, false, &f);
    if (why == FASTBLOOM_MEMORY) return SQLITE_NOMEM;
    if (why != FASTBLOOM_OK) return refuse(t, fastbloom_strerror(why));
    if (f.num_words != t->f.num_words || f.num_hashes != t->f.num_hashes ||
        memcmp(f.key, t->f.key, KEY) != 0)
        return refuse(t, "the file is for other items, another rate or another key");
    int code = SQLITE_OK;
    /* A damaged row is refused before another one is written, which SQLite may not undo. */
    for (sqlite3_int64 row = 1; code == SQLITE_OK && bytes_of(t, row) > 0; row++)
        code = open_row(t, row, true, &bits);
    for (sqlite3_int64 row = 1; code == SQLITE_OK && (len = bytes_of(t, row)) > 0; row++) {
        code = open_row(t, row, true, &bits);
        if (code == SQLITE_OK) code = sqlite3_blob_read(bits, t->row, (int)len, 0);
        memcpy(t->other, f.file + at, len);
        at += len;
        if (code == SQLITE_OK && fastbloom_union(t->row, len / 8, t->other, len / 8))
            code = sqlite3_blob_write(bits, t->row, (int)len, 0);
    }
    return close_row(bits, code);
}

/* An INSERT of an item or of a file. INSERT OR IGNORE leaves out NULL, and what is in already as
 * far as the filter tells, so changes() tells what is new. */
static int update(sqlite3_vtab *base, int argc, sqlite3_value **argv, sqlite3_int64 *id) {
    table *t = (table *)base;
    uint64_t hash;
    bool is_new = false;
    if (argc == 1 || sqlite3_value_type(argv[0]) != SQLITE_NULL)
        return refuse(t, "a filter can't delete or change an item: make the table anew");
    sqlite3_value *item = argv[2 + COLUMN_ITEM], *file = argv[2 + COLUMN_FILE];
    bool has_file = sqlite3_value_type(file) != SQLITE_NULL;
    if (sqlite3_value_type(argv[2 + COLUMN_INFO]) != SQLITE_NULL ||
        (has_file && sqlite3_value_type(item) != SQLITE_NULL))
        return refuse(t, "insert an item or a file");
    *id = sqlite3_last_insert_rowid(t->db);
    int code = need_head(t);
    if (code != SQLITE_OK) return code;
    if (has_file) return insert_file(t, file);
    int known = hash_of(item, t->f.key, &hash);
    if (known < 0) return SQLITE_NOMEM;
    if (known > 0) code = insert_hash(t, hash, &is_new);
    if (code != SQLITE_OK || is_new) return code;
    return sqlite3_vtab_on_conflict(t->db) == SQLITE_IGNORE ? SQLITE_CONSTRAINT : SQLITE_OK;
}

/* SQLite opens the table by its new name afterwards. */
static int rename_table(sqlite3_vtab *base, const char *name) {
    table *t = (table *)base;
    int code = run(t->db, "ALTER TABLE %s RENAME TO \"%w_data\"", t->quoted, name);
    return code == SQLITE_ERROR ? refuse(t, sqlite3_errmsg(t->db)) : code;
}

static int is_shadow(const char *suffix) { return sqlite3_stricmp(suffix, "data") == 0; }

static sqlite3_module module = {
    3,     create_table, open_table, best_index,   disconnect, destroy, open_cursor, close_cursor,
    begin, next,         at_end,     column,       row_id,     update,  NULL,        NULL,
    NULL,  NULL,         NULL,       rename_table, NULL,       NULL,    NULL,        is_shadow};

__attribute__((visibility("default"))) int
sqlite3_fastbloomsqlite_init(sqlite3 *db, char **error, const sqlite3_api_routines *api) {
    SQLITE_EXTENSION_INIT2(api);
    const int pure = SQLITE_UTF8 | SQLITE_DETERMINISTIC | SQLITE_INNOCUOUS;
    const int reads = SQLITE_UTF8 | SQLITE_DIRECTONLY;
    (void)error;
    int code = sqlite3_create_module(db, "bloom", &module, NULL);
    for (int n = 3; n <= 4 && !code; n++)
        code = sqlite3_create_function(db, "bloom", n, pure, NULL, NULL, bloom_step, bloom_final);
    if (!code)
        code = sqlite3_create_function(db, "bloom_contains", 2, pure, NULL, contains, NULL, NULL);
    return code ? code : sqlite3_create_function(db, "bloom_in", 2, reads, NULL, in, NULL, NULL);
}
