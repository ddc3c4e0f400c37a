/* The same work in SQLite, in memory: one table, prepared statements, each a transaction of its own but for inserts.
   peer WORK ROWS ROUNDS SIZE prints the seconds that the work took, without the making of the rows it works on. SIZE is
   the rows of a page, or of a transaction of inserts. */
#include <sqlite3.h>
#include <stdio.h>
#include <stdlib.h>
#include <string.h>
#include <time.h>

static sqlite3 *db;

static void check(int code, int wanted) {
    if (code != wanted) {
        fprintf(stderr, "peer: %s\n", sqlite3_errmsg(db));
        exit(1);
    }
}

static double now(void) {
    struct timespec t;
    clock_gettime(CLOCK_MONOTONIC, &t);
    return t.tv_sec + t.tv_nsec / 1e9;
}

static sqlite3_stmt *prepare(const char *text) {
    sqlite3_stmt *statement;
    check(sqlite3_prepare_v2(db, text, -1, &statement, NULL), SQLITE_OK);
    return statement;
}

static void place(int i, char *pk, char *rk) {
    sprintf(pk, "p%02d", i / 1000);
    sprintf(rk, "%07d", i);
}

static void bind_place(sqlite3_stmt *s, int at, const char *pk, const char *rk) {
    check(sqlite3_bind_text(s, at, pk, -1, SQLITE_STATIC), SQLITE_OK);
    check(sqlite3_bind_text(s, at + 1, rk, -1, SQLITE_STATIC), SQLITE_OK);
}

static void run(sqlite3_stmt *s) {
    check(sqlite3_step(s), SQLITE_DONE);
    check(sqlite3_reset(s), SQLITE_OK);
}

static long tick = 0;

/* rows in rising order, so many in each transaction */
static void insert(int rows, int size) {
    sqlite3_stmt *begin = prepare("BEGIN"), *commit = prepare("COMMIT");
    sqlite3_stmt *s = prepare("INSERT INTO goods VALUES (?, ?, ?, ?, 'Saw')");
    char pk[16], rk[16];
    for (int i = 0; i < rows; i++) {
        if (size > 1 && i % size == 0) {
            run(begin);
        }
        place(i, pk, rk);
        bind_place(s, 1, pk, rk);
        sqlite3_bind_int64(s, 3, tick++);
        sqlite3_bind_int(s, 4, i % 1000);
        run(s);
        if (size > 1 && (i % size == size - 1 || i == rows - 1)) {
            run(commit);
        }
    }
    sqlite3_finalize(s);
    sqlite3_finalize(begin);
    sqlite3_finalize(commit);
}

static long read_columns(sqlite3_stmt *s) {
    return sqlite3_column_bytes(s, 0) + sqlite3_column_bytes(s, 1) + sqlite3_column_bytes(s, 4) + sqlite3_column_int64(s, 2) + sqlite3_column_int(s, 3);
}

/* every row once by its keys, in scattered order, its columns read */
static long point_reads(int rows) {
    sqlite3_stmt *s = prepare("SELECT pk, rk, tick, count, name FROM goods WHERE pk = ? AND rk = ?");
    char pk[16], rk[16];
    long bytes = 0;
    for (int i = 0; i < rows; i++) {
        place((long)i * 7919 % rows, pk, rk);
        bind_place(s, 1, pk, rk);
        check(sqlite3_step(s), SQLITE_ROW);
        bytes += read_columns(s);
        check(sqlite3_reset(s), SQLITE_OK);
    }
    sqlite3_finalize(s);
    return bytes;
}

/* every row is looked at, and none matches */
static void filter(void) {
    sqlite3_stmt *s = prepare("SELECT pk, rk, tick, count, name FROM goods WHERE count = -1 ORDER BY pk, rk");
    run(s);
    sqlite3_finalize(s);
}

/* pages of so many rows, each from the key behind the one before, whose columns are read */
static long pages(int size) {
    sqlite3_stmt *s = prepare("SELECT pk, rk, tick, count, name FROM goods WHERE (pk, rk) >= (?, ?) ORDER BY pk, rk LIMIT ?");
    check(sqlite3_bind_int(s, 3, size + 1), SQLITE_OK);
    char pk[16] = "", rk[16] = "";
    long bytes = 0;
    for (;;) {
        bind_place(s, 1, pk, rk);
        int n = 0;
        while (n < size && sqlite3_step(s) == SQLITE_ROW) {
            bytes += read_columns(s);
            n++;
        }
        if (n < size || sqlite3_step(s) != SQLITE_ROW) {
            break;
        }
        char next_pk[16], next_rk[16];
        strcpy(next_pk, (const char *)sqlite3_column_text(s, 0));
        strcpy(next_rk, (const char *)sqlite3_column_text(s, 1));
        check(sqlite3_reset(s), SQLITE_OK);
        strcpy(pk, next_pk);
        strcpy(rk, next_rk);
    }
    sqlite3_finalize(s);
    return bytes;
}

static void write_all(const char *text, int rows, int conditional) {
    sqlite3_stmt *s = prepare(text);
    char pk[16], rk[16];
    for (int i = 0; i < rows; i++) {
        place(i, pk, rk);
        bind_place(s, 3, pk, rk);
        sqlite3_bind_int64(s, 1, tick++);
        sqlite3_bind_int(s, 2, i % 7);
        if (conditional) {
            sqlite3_bind_int64(s, 5, tick - 1 - rows);
        }
        run(s);
        if (sqlite3_changes(db) != 1) {
            fprintf(stderr, "peer: row %d was not written\n", i);
            exit(1);
        }
    }
    sqlite3_finalize(s);
}

int main(int argc, char **argv) {
    if (argc != 5) {
        fprintf(stderr, "usage: peer WORK ROWS ROUNDS SIZE\n");
        return 2;
    }
    const char *work = argv[1];
    int rows = atoi(argv[2]), rounds = atoi(argv[3]), size = atoi(argv[4]);
    check(sqlite3_open(":memory:", &db), SQLITE_OK);
    check(sqlite3_exec(db, "CREATE TABLE goods (pk TEXT, rk TEXT, tick INTEGER, count INTEGER, name TEXT, PRIMARY KEY (pk, rk)) WITHOUT ROWID", NULL, NULL, NULL), SQLITE_OK);
    double start = now();
    insert(rows, strcmp(work, "insert") == 0 ? size : 1);
    if (strcmp(work, "insert") != 0) {
        start = now();
    }
    for (int round = 0; round < rounds; round++) {
        if (strcmp(work, "filter") == 0) {
            filter();
        } else if (strcmp(work, "pages") == 0) {
            pages(size);
        } else if (strcmp(work, "read") == 0) {
            point_reads(rows);
        } else if (strcmp(work, "upsert") == 0) {
            write_all("INSERT OR REPLACE INTO goods VALUES (?3, ?4, ?1, ?2, 'Saw')", rows, 0);
        } else if (strcmp(work, "merge") == 0) {
            write_all("UPDATE goods SET tick = ?1, count = ?2 WHERE pk = ?3 AND rk = ?4", rows, 0);
        } else if (strcmp(work, "condition") == 0) {
            write_all("UPDATE goods SET tick = ?1, count = ?2, name = 'Saw' WHERE pk = ?3 AND rk = ?4 AND tick = ?5", rows, 1);
        }
    }
    printf("%.6f\n", now() - start);
    return 0;
}
