/* The same statements as bench/sqlite.rt.txt over C's SQLite, with the same settings: a log ahead of the file, synced at each commit, the file locked. */
#include <sqlite3.h>
#include <stdio.h>
#include <stdlib.h>
#include <string.h>
#include <time.h>

static const char *SQL[4] = {
    "INSERT INTO t VALUES (?1, ?2)",
    "SELECT v FROM t WHERE id = ?1",
    "UPDATE t SET v = ?2 WHERE id = ?1",
    "DELETE FROM t WHERE id = ?1",
};
static const int VALUES[4] = {2, 1, 2, 1};
static sqlite3 *db;

static void die(const char *what) {
    printf("%s: %s\n", what, db ? sqlite3_errmsg(db) : "");
    exit(1);
}

static void run(const char *sql) {
    if (sqlite3_exec(db, sql, 0, 0, 0)) die(sql);
}

static int call(sqlite3_stmt *s, int place, long long n) {
    for (int i = 1; i <= VALUES[place]; i++) sqlite3_bind_int64(s, i, place == 2 && i == 2 ? n ^ 1 : n);
    int told = sqlite3_step(s), found = told == SQLITE_ROW && sqlite3_column_int64(s, 0) == n;
    if (told == SQLITE_ROW) told = sqlite3_step(s);
    if (told != SQLITE_DONE) die("step");
    sqlite3_reset(s);
    return place == 1 ? found : sqlite3_changes(db) == 1;
}

int main(int words, char **word) {
    if (words < 4) die("usage: sqlite each|one FILE ROWS [STATEMENTS]");
    int in_one = !strcmp(word[1], "one"), count = words > 4 ? atoi(word[4]) : 4;
    long long rows = atoll(word[3]);
    if (sqlite3_open(word[2], &db)) die("open");
    run("PRAGMA locking_mode = EXCLUSIVE; PRAGMA journal_mode = WAL; PRAGMA synchronous = FULL");
    run("CREATE TABLE IF NOT EXISTS t (id INTEGER PRIMARY KEY, v INTEGER NOT NULL)");
    for (int place = 0; place < count; place++) {
        struct timespec a, b;
        sqlite3_stmt *s;
        long long hits = 0;
        clock_gettime(CLOCK_MONOTONIC, &a);
        if (sqlite3_prepare_v2(db, SQL[place], -1, &s, 0)) die("prepare");
        if (in_one) run("BEGIN");
        for (long long row = 0; row < rows; row++) hits += call(s, place, row * 61803 % 1048576);
        if (in_one) run("COMMIT");
        clock_gettime(CLOCK_MONOTONIC, &b);
        if (hits != rows) die("a call missed its row");
        printf("%lld\n", ((b.tv_sec - a.tv_sec) * 1000000000LL + b.tv_nsec - a.tv_nsec) / (rows ? rows : 1));
    }
    return 0;
}
