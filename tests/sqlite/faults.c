/* Tries the extension of SQLite where a request fails: for memory, and for a write to the disk.
 * Each statement of a session runs again and again: first its first request is refused, then its
 * second, until it makes no more. A refusal has to be told as one, or the statement returns what it
 * does without faults. What was committed has to stay, and what fails to leave nothing; at the end
 * the filter is that of a session without faults.
 *
 * `faults FOLDER` makes its databases there. */
#include <sqlite3.h>

#include <stdbool.h>
#include <stdio.h>
#include <stdlib.h>
#include <string.h>

int sqlite3_fastbloomsqlite_init(sqlite3 *, char **, const struct sqlite3_api_routines *);

/* The request that is refused, counted down; 0 for none. */
static long refused_memory, refused_write, requests;

static void require(bool is_right, const char *what, const char *sql, const char *why) {
    if (is_right) return;
    fprintf(stderr, "%s: %s: %s (memory %ld, write %ld)\n", what, sql, why, refused_memory,
            refused_write);
    exit(1);
}

static bool refuse(long *countdown) {
    requests++;
    return *countdown > 0 && --*countdown == 0;
}

/* Memory: the usual calls, some of which refuse. */
static sqlite3_mem_methods usual;

static void *allocate(int size) { return refuse(&refused_memory) ? NULL : usual.xMalloc(size); }

static void *resize(void *memory, int size) {
    return refuse(&refused_memory) ? NULL : usual.xRealloc(memory, size);
}

/* The disk: files have the usual calls, but for the one that writes. */
static sqlite3_vfs files, *usual_files;
static struct {
    const sqlite3_io_methods *usual;
    sqlite3_io_methods own;
} kinds[4];

static int write_file(sqlite3_file *file, const void *bytes, int size, sqlite3_int64 at) {
    for (int i = 0; i < 4; i++)
        if (file->pMethods == &kinds[i].own)
            return refuse(&refused_write) ? SQLITE_FULL
                                          : kinds[i].usual->xWrite(file, bytes, size, at);
    return SQLITE_INTERNAL;
}

static int open_file(sqlite3_vfs *vfs, const char *name, sqlite3_file *file, int flags, int *got) {
    (void)vfs;
    int code = usual_files->xOpen(usual_files, name, file, flags, got), i = 0;
    if (file->pMethods == NULL) return code;
    while (kinds[i].usual != NULL && kinds[i].usual != file->pMethods) i++;
    require(i < 4, "kinds of files", "", "too many");
    kinds[i].usual = file->pMethods;
    kinds[i].own = *file->pMethods;
    kinds[i].own.xWrite = write_file;
    file->pMethods = &kinds[i].own;
    return code;
}

/* Room for the first value of a row, as text. */
typedef char value[200];

/* Runs statements. It returns the code of the first that fails, and has the value of the last row
 * if there is one. */
static int run(sqlite3 *db, const char *sql, value found) {
    sqlite3_stmt *it = NULL;
    int code = SQLITE_OK;
    found[0] = 0;
    while (code == SQLITE_OK && *sql != 0) {
        code = sqlite3_prepare_v2(db, sql, -1, &it, &sql);
        while (code == SQLITE_OK && sqlite3_step(it) == SQLITE_ROW) {
            bool is_null = sqlite3_column_type(it, 0) == SQLITE_NULL;
            const char *text = (const void *)sqlite3_column_text(it, 0);
            if (text == NULL && !is_null) code = SQLITE_NOMEM;
            snprintf(found, sizeof(value), "%s", text == NULL ? "NULL" : text);
        }
        int ended = sqlite3_finalize(it);
        if (code == SQLITE_OK) code = ended;
    }
    return code;
}

static void want(sqlite3 *db, const char *sql, const char *wanted) {
    value found;
    int code = run(db, sql, found);
    require(code == SQLITE_OK && strcmp(found, wanted) == 0, wanted, sql,
            code == SQLITE_OK ? found : sqlite3_errmsg(db));
}

static sqlite3 *open_database(const char *path) {
    sqlite3 *db;
    require(sqlite3_open(path, &db) == SQLITE_OK, "open", path, "fails");
    want(db, "PRAGMA cache_size = 10; PRAGMA synchronous = OFF", "");
    return db;
}

/* Each leaves the same, however often it is run. */
static const char *const session[] = {
    "DROP TABLE IF EXISTS seen; BEGIN;"
    "CREATE VIRTUAL TABLE seen USING bloom(items=20000, rate='1/1000'); COMMIT",
    "INSERT INTO seen(item) VALUES('a'), (5), (x'00'), (2.5), (NULL)",
    "INSERT OR IGNORE INTO seen(item) VALUES('a'), ('b')",
    "BEGIN; INSERT INTO seen(item) SELECT value FROM numbers; COMMIT",
    "INSERT INTO seen(file) SELECT bloom('c' || value, 20000, '1/1000') FROM numbers",
    "SELECT count(*) FROM numbers JOIN seen ON item = value",
    "SELECT count(*) FROM numbers WHERE bloom_in('seen', 'c' || value)",
    "SELECT bloom_contains(file, 'a') + length(info) FROM seen",
    "SELECT bloom_contains(bloom(value, 20, '1/100', x'000102030405060708090a0b0c0d0e0f'), 1) "
    "FROM numbers",
    "BEGIN; ALTER TABLE seen RENAME TO other; ALTER TABLE other RENAME TO seen; COMMIT",
    "INSERT INTO t SELECT value FROM numbers",
    "BEGIN; CREATE VIRTUAL TABLE gone USING bloom(items=9, rate='1/9', key=random); "
    "DROP TABLE gone; COMMIT",
};

/* What each statement of a session returns that no fault meets, and what the session leaves. */
static value returned[sizeof session / sizeof *session], left;
static const char leaves[] = "SELECT count(*) || hex(substr(f, 41, 8)) FROM sqlite_schema, "
                             "(SELECT file AS f FROM seen)";

/* Runs a session whose requests of one kind are refused, with steps between those that are. */
static long run_session(const char *path, long *refused, int wanted, long step) {
    long faults = 0;
    value found;
    remove(path);
    sqlite3 *db = open_database(path);
    /* (where each text that the extension reads is converted, for which it needs memory) */
    if (wanted == SQLITE_NOMEM) want(db, "PRAGMA encoding = 'UTF-16le'", "");
    want(db,
         "CREATE TABLE numbers(value); CREATE TABLE t(k); INSERT INTO numbers "
         "WITH RECURSIVE n(i) AS (SELECT 1 UNION ALL SELECT i + 1 FROM n WHERE i < 99) "
         "SELECT 7 * i FROM n",
         "");
    for (size_t i = 0; i < sizeof session / sizeof *session; i++) {
        int code = SQLITE_NOMEM;
        /* (a rename makes thousands of requests, nearly all for SQLite's own ends) */
        long by = strstr(session[i], "RENAME") != NULL ? 16 * step : step;
        if (i == 1)
            want(db,
                 "CREATE TRIGGER g AFTER INSERT ON t BEGIN "
                 "INSERT INTO seen(item) VALUES('t' || NEW.k); END",
                 "");
        for (long at = 1; refused != NULL && code != SQLITE_OK; at += by) {
            /* A fresh connection makes each request anew. */
            sqlite3_close(db);
            db = open_database(path);
            *refused = at;
            code = run(db, session[i], found);
            bool was_refused = *refused == 0;
            *refused = 0;
            require(code == SQLITE_OK || (was_refused && (code & 255) == wanted), "a code",
                    session[i], sqlite3_errmsg(db));
            require(code != SQLITE_OK || strcmp(found, returned[i]) == 0, returned[i], session[i],
                    found);
            faults += was_refused;
            if (sqlite3_get_autocommit(db) == 0) run(db, "ROLLBACK", found);
            /* A request may be one that SQLite does without. */
            if (code == SQLITE_OK && was_refused) code = SQLITE_NOMEM;
        }
        if (refused == NULL) require(run(db, session[i], returned[i]) == 0, "runs", session[i], "");
    }
    want(db, "PRAGMA integrity_check", "ok");
    want(db,
         "SELECT count(*) FROM numbers WHERE bloom_in('seen', value) "
         "AND bloom_in('seen', 'c' || value) AND bloom_in('seen', 't' || value)",
         "99");
    if (refused == NULL) require(run(db, leaves, left) == 0, leaves, "", "fails");
    want(db, leaves, left);
    sqlite3_close(db);
    return faults;
}

int main(int argc, char **argv) {
    char path[4096];
    long step = argc > 2 ? atol(argv[2]) : 1;
    require(argc > 1, "usage", "faults FOLDER [STEP]", "");
    snprintf(path, sizeof path, "%s/faults.db", argv[1]);
    sqlite3_config(SQLITE_CONFIG_LOOKASIDE, 0, 0);
    sqlite3_config(SQLITE_CONFIG_GETMALLOC, &usual);
    sqlite3_mem_methods own = usual;
    own.xMalloc = allocate;
    own.xRealloc = resize;
    sqlite3_config(SQLITE_CONFIG_MALLOC, &own);
    sqlite3_initialize();
    usual_files = sqlite3_vfs_find(NULL);
    files = *usual_files;
    files.zName = "faults";
    files.xOpen = open_file;
    sqlite3_vfs_register(&files, 1);
    sqlite3_auto_extension((void (*)(void))sqlite3_fastbloomsqlite_init);
    run_session(path, NULL, 0, 1);
    require(run_session(path, &refused_memory, SQLITE_NOMEM, step) > 99, "memory", "",
            "few faults");
    require(run_session(path, &refused_write, SQLITE_FULL, 1) > 99, "writes", "", "few faults");
    puts("faults well");
    return 0;
}
