/* The same commits through the C library: an attempt is put, by an UPDATE that finds none and an INSERT, the next number and the row of
   the job are put, in one transaction each. */
#include <sqlite3.h>
#include <stdio.h>
#include <stdlib.h>
#include <time.h>

static const int GRANTS = 2000;

static void ok(int code, sqlite3 *db) {
    if (code != SQLITE_OK && code != SQLITE_DONE) {
        fprintf(stderr, "%s\n", sqlite3_errmsg(db));
        exit(1);
    }
}

static sqlite3_stmt *prepared(sqlite3 *db, const char *text) {
    sqlite3_stmt *statement;
    ok(sqlite3_prepare_v2(db, text, -1, &statement, 0), db);
    return statement;
}

static void run(sqlite3 *db, sqlite3_stmt *statement) {
    ok(sqlite3_step(statement), db);
    sqlite3_reset(statement);
}

static void put(sqlite3 *db, sqlite3_stmt *attempt, int id) {
    sqlite3_bind_int64(attempt, 1, id);
    sqlite3_bind_int64(attempt, 2, id);
    sqlite3_bind_int64(attempt, 3, 1);
    sqlite3_bind_text(attempt, 4, "j1-abababababababababababababababab", -1, SQLITE_STATIC);
    sqlite3_bind_int64(attempt, 5, 1000);
    sqlite3_bind_int64(attempt, 6, 1000);
    sqlite3_bind_int64(attempt, 7, 0);
    sqlite3_bind_null(attempt, 8);
    sqlite3_bind_null(attempt, 9);
    run(db, attempt);
}

int main(int count, char **words) {
    sqlite3 *db;
    if (count != 2) return 2;
    ok(sqlite3_open(words[1], &db), 0);
    ok(sqlite3_exec(db, "PRAGMA journal_mode = WAL; PRAGMA synchronous = FULL; PRAGMA foreign_keys = ON;"
                        "DELETE FROM attempt; UPDATE meta SET num = 1 WHERE key = 'next_attempt'; UPDATE board SET status = 1", 0, 0, 0), db);
    sqlite3_stmt *begin = prepared(db, "BEGIN IMMEDIATE");
    sqlite3_stmt *commit = prepared(db, "COMMIT");
    sqlite3_stmt *there = prepared(db, "UPDATE attempt SET id = ?1, job = ?2, runner = ?3, token = ?4, granted = ?5, seen = ?6, state = ?7, cause = ?8, exit = ?9 WHERE id = ?1");
    sqlite3_stmt *add = prepared(db, "INSERT INTO attempt (id, job, runner, token, granted, seen, state, cause, exit) VALUES (?1, ?2, ?3, ?4, ?5, ?6, ?7, ?8, ?9)");
    sqlite3_stmt *next = prepared(db, "UPDATE meta SET key = ?1, num = ?2 WHERE key = ?1");
    sqlite3_stmt *row = prepared(db, "UPDATE board SET job = ?1, status = ?2, open = ?3, failed = ?4, barred = ?5 WHERE job = ?1");
    struct timespec from, to;
    clock_gettime(CLOCK_MONOTONIC, &from);
    for (int id = 1; id <= GRANTS; id++) {
        run(db, begin);
        put(db, there, id);
        put(db, add, id);
        sqlite3_bind_text(next, 1, "next_attempt", -1, SQLITE_STATIC);
        sqlite3_bind_int64(next, 2, id + 1);
        run(db, next);
        sqlite3_bind_int64(row, 1, id);
        sqlite3_bind_int64(row, 2, 2);
        sqlite3_bind_int64(row, 3, 0);
        sqlite3_bind_int64(row, 4, 0);
        sqlite3_bind_int64(row, 5, 0);
        run(db, row);
        run(db, commit);
    }
    clock_gettime(CLOCK_MONOTONIC, &to);
    double micros = ((to.tv_sec - from.tv_sec) * 1e9 + (to.tv_nsec - from.tv_nsec)) / 1e3 / GRANTS;
    printf("C sqlite: %.0f us a grant\n", micros);
    return 0;
}
