/* The same statements as bench/store.rt.txt over C's SQLite, with the same settings: a log ahead of the file, synced at each commit, the file locked. */
#include <sqlite3.h>
#include <stdio.h>
#include <stdlib.h>
#include <string.h>
#include <time.h>

static const char *SQL[4] = {
    "SELECT c0, c1, c2 FROM t0 WHERE c0 = ? ORDER BY id",
    "INSERT INTO t0 VALUES (NULL, ?, ?, ?)",
    "UPDATE t0 SET c2 = ? WHERE c0 = ?",
    "DELETE FROM t0 WHERE c0 = ?",
};
static const int VALUES[4] = {1, 3, 2, 1};
static sqlite3 *db;
static sqlite3_stmt *statements[4];
static int scattered;

static void die(const char *what) {
    printf("%s: %s\n", what, db ? sqlite3_errmsg(db) : "");
    exit(1);
}

static long long key(long long row) { return scattered ? row * 61803 % 1048576 : row % 1048576; }

static int call(int which, long long n) {
    sqlite3_stmt *s = statements[which];
    for (int i = 1; i <= VALUES[which]; i++) sqlite3_bind_int64(s, i, which == 2 && i == 1 ? n ^ 1 : n);
    int hits = 0, told;
    volatile long long sum = 0;
    while ((told = sqlite3_step(s)) == SQLITE_ROW) {
        for (int i = 0; i < 3; i++) sum += sqlite3_column_int64(s, i);
        hits++;
    }
    if (told != SQLITE_DONE) die("step");
    sqlite3_reset(s);
    return which ? sqlite3_changes(db) : hits;
}

static long long many(int which, long long first, long long step, long long calls) {
    struct timespec a, b;
    clock_gettime(CLOCK_MONOTONIC, &a);
    for (long long i = 0; i < calls; i++)
        if (call(which, key(first + i * step)) != 1) die("a call missed its row");
    clock_gettime(CLOCK_MONOTONIC, &b);
    return ((b.tv_sec - a.tv_sec) * 1000000000LL + b.tv_nsec - a.tv_nsec) / (calls ? calls : 1);
}

int main(int words, char **word) {
    if (words != 3) die("usage: store in-order|scattered FILE");
    scattered = !strcmp(word[1], "scattered");
    if (sqlite3_open(word[2], &db)) die("open");
    if (sqlite3_exec(db, "PRAGMA locking_mode = EXCLUSIVE; PRAGMA journal_mode = WAL; PRAGMA synchronous = FULL; CREATE TABLE t0 (id INTEGER PRIMARY KEY AUTOINCREMENT, "
            "c0 INTEGER NOT NULL UNIQUE, c1 INTEGER NOT NULL, c2 INTEGER NOT NULL) STRICT", 0, 0, 0)) die("table");
    for (int i = 0; i < 4; i++)
        if (sqlite3_prepare_v2(db, SQL[i], -1, &statements[i], 0)) die("prepare");
    long long there = 0;
    for (long long rows = 1000; rows <= 100000; rows *= 10) {
        many(1, there, 1, rows - there);
        there = rows;
        long long step = rows / 1000;
        long long select = many(0, 0, step, 1000), insert = many(1, rows, 1, 1000), update = many(2, 0, step, 1000), delete = many(3, rows, 1, 1000);
        printf("%s %lld %lld %lld %lld %lld\n", word[1], rows, select, insert, update, delete);
    }
    return 0;
}
