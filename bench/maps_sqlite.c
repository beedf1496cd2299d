/* Lookups in SQLite in memory, with the keys and the slots of crates/sea_map_trial: an integer primary
   key with three numbers, prepared statements, and one transaction. Prints their processor seconds. */
#include <sqlite3.h>
#include <stdint.h>
#include <stdio.h>
#include <stdlib.h>
#include <time.h>

static double seconds(void) {
    struct timespec now;
    clock_gettime(CLOCK_PROCESS_CPUTIME_ID, &now);
    return now.tv_sec + now.tv_nsec / 1e9;
}

static void must(int is, int wanted, sqlite3 *store) {
    if (is != wanted) {
        fprintf(stderr, "sqlite: %s\n", sqlite3_errmsg(store));
        exit(1);
    }
}

int main(int count, char **words) {
    if (count != 3) {
        fprintf(stderr, "usage: maps_sqlite RUNS LOOKUPS\n");
        return 1;
    }
    uint64_t keys = 64 * strtoull(words[1], NULL, 10);
    uint64_t lookups = strtoull(words[2], NULL, 10);
    sqlite3 *store;
    sqlite3_stmt *put, *get;
    must(sqlite3_open(":memory:", &store), SQLITE_OK, store);
    must(sqlite3_exec(store, "create table slots (k integer primary key, place integer, version integer, sum integer); begin", NULL, NULL, NULL), SQLITE_OK, store);
    must(sqlite3_prepare_v2(store, "insert into slots values (?1, ?2, ?3, ?4)", -1, &put, NULL), SQLITE_OK, store);
    must(sqlite3_prepare_v2(store, "select place, version, sum from slots where k = ?1", -1, &get, NULL), SQLITE_OK, store);
    for (uint64_t key = 0; key < keys; key++) {
        sqlite3_bind_int64(put, 1, (int64_t)key);
        sqlite3_bind_int64(put, 2, (int64_t)(key % 1000000));
        sqlite3_bind_int64(put, 3, (int64_t)key);
        sqlite3_bind_int64(put, 4, (int64_t)(key * 61));
        must(sqlite3_step(put), SQLITE_DONE, store);
        sqlite3_reset(put);
    }
    uint64_t found = 0;
    double start = seconds();
    for (uint64_t number = 0; number < lookups; number++) {
        uint64_t key = keys ? number * 2654435761u % keys : 0;
        sqlite3_bind_int64(get, 1, (int64_t)key);
        if (sqlite3_step(get) == SQLITE_ROW && sqlite3_column_int64(get, 1) == (int64_t)key) {
            found++;
        }
        sqlite3_reset(get);
    }
    printf("%.6f\n", seconds() - start);
    fprintf(stderr, "found %llu\n", (unsigned long long)found);
    sqlite3_finalize(put);
    sqlite3_finalize(get);
    sqlite3_close(store);
    return 0;
}
