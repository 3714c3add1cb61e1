// Puts in a database of SQLite, one after the other, each a transaction of its own that is synced: prints the microseconds of each.
//   sqlite FILE COUNT JOURNAL      puts of 100 bytes at ten keys; JOURNAL is wal, delete or any other that SQLite knows
#include <sqlite3.h>
#include <stdio.h>
#include <stdlib.h>
#include <string.h>
#include <time.h>

static sqlite3 *db;

static void need(int ok, const char *what) {
    if (!ok) { fprintf(stderr, "sqlite: %s: %s\n", what, db ? sqlite3_errmsg(db) : ""); exit(1); }
}

static double now(void) {
    struct timespec t;
    clock_gettime(CLOCK_MONOTONIC, &t);
    return t.tv_sec * 1e6 + t.tv_nsec / 1e3;
}

int main(int argc, char **argv) {
    need(argc == 4, "FILE COUNT JOURNAL");
    need(sqlite3_open(argv[1], &db) == SQLITE_OK, "open");
    char mode[64];
    snprintf(mode, sizeof mode, "PRAGMA journal_mode = %s", argv[3]);
    need(sqlite3_exec(db, mode, NULL, NULL, NULL) == SQLITE_OK, "journal");
    need(sqlite3_exec(db, "PRAGMA synchronous = FULL; CREATE TABLE pairs (key TEXT PRIMARY KEY, value TEXT) WITHOUT ROWID", NULL, NULL, NULL) == SQLITE_OK, "table");
    sqlite3_stmt *put;
    need(sqlite3_prepare_v2(db, "INSERT OR REPLACE INTO pairs VALUES (?, ?)", -1, &put, NULL) == SQLITE_OK, "statement");
    char value[100];
    memset(value, 'v', sizeof value);
    long count = atol(argv[2]);
    for (long i = 0; i < count; i++) {
        char key[8];
        snprintf(key, sizeof key, "c1k%ld", i % 10);
        double before = now();
        sqlite3_bind_text(put, 1, key, -1, SQLITE_STATIC);
        sqlite3_bind_text(put, 2, value, sizeof value, SQLITE_STATIC);
        need(sqlite3_step(put) == SQLITE_DONE, "put");
        sqlite3_reset(put);
        printf("%.1f\n", now() - before);
    }
    sqlite3_finalize(put);
    need(sqlite3_close(db) == SQLITE_OK, "close");
    return 0;
}
