/* The joins of bench/joins.rt.txt over C's SQLite in memory: each row that is stepped to is read. */
#include <sqlite3.h>
#include <stdio.h>
#include <stdlib.h>
#include <time.h>

enum { ROUNDS = 5 };
static sqlite3 *db;

static void die(const char *what) {
    printf("%s: %s\n", what, db ? sqlite3_errmsg(db) : "");
    exit(1);
}

static void run(const char *sql) {
    if (sqlite3_exec(db, sql, 0, 0, 0)) die(sql);
}

static void put(const char *sql, long long id, long long value) {
    sqlite3_stmt *s;
    if (sqlite3_prepare_v2(db, sql, -1, &s, 0)) die("prepare");
    sqlite3_bind_int64(s, 1, id);
    sqlite3_bind_int64(s, 2, value);
    if (sqlite3_step(s) != SQLITE_DONE) die("step");
    sqlite3_finalize(s);
}

/* The least time of a SELECT in nanoseconds. */
static long long timed(const char *sql, long long wanted) {
    long long least = -1;
    for (int round = 0; round < ROUNDS; round++) {
        struct timespec a, b;
        sqlite3_stmt *s;
        long long rows = 0, sum = 0;
        if (sqlite3_prepare_v2(db, sql, -1, &s, 0)) die("prepare");
        clock_gettime(CLOCK_MONOTONIC, &a);
        while (sqlite3_step(s) == SQLITE_ROW) {
            sum += sqlite3_column_int64(s, 0) ^ sqlite3_column_int64(s, 1);
            rows++;
        }
        clock_gettime(CLOCK_MONOTONIC, &b);
        sqlite3_finalize(s);
        if (rows != wanted || sum < 0) die("other rows");
        long long time = (b.tv_sec - a.tv_sec) * 1000000000LL + b.tv_nsec - a.tv_nsec;
        if (least < 0 || time < least) least = time;
    }
    return least;
}

int main(void) {
    for (long long rows = 1000; rows <= 100000; rows *= 10) {
        if (sqlite3_open(":memory:", &db)) die("open");
        run("CREATE TABLE a (id INTEGER PRIMARY KEY, n INTEGER NOT NULL); CREATE TABLE b (id INTEGER PRIMARY KEY, m INTEGER NOT NULL); BEGIN");
        for (long long row = 0; row < rows; row++) {
            put("INSERT INTO a VALUES (?1, ?2)", row, row * 61803 % rows);
            put("INSERT INTO b VALUES (?1, ?2)", row, row);
        }
        run("COMMIT");
        long long all = timed("SELECT a.id, b.m FROM a JOIN b ON a.n = b.id", rows);
        long long one = timed("SELECT a.id, b.m FROM a JOIN b ON a.n = b.id WHERE a.id = 0", 1);
        printf("SQLite %lld %lld %lld\n", rows, all, one);
        sqlite3_close(db);
    }
    return 0;
}
