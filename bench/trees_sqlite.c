/* Puts, gets and ranges in SQLite in memory, with the keys and the values of crates/sea_trial: a blob
   primary key without rowid, prepared statements, and one transaction. Prints the processor seconds of each. */
#include <sqlite3.h>
#include <stdint.h>
#include <stdio.h>
#include <stdlib.h>
#include <string.h>
#include <time.h>

static const uint64_t KEYS = 100000000;
static const uint64_t STRIDE = 61803399;

static double seconds(void) {
    struct timespec now;
    clock_gettime(CLOCK_PROCESS_CPUTIME_ID, &now);
    return now.tv_sec + now.tv_nsec / 1e9;
}

static void must(int is, int wanted, sqlite3 *store) {
    if (is != wanted) {
        fprintf(stderr, "sqlite: %s\n", sqlite3_errmsg(store));
        exit(1);
    }
}

static void bind_key(sqlite3_stmt *call, uint32_t number) {
    char key[16];
    snprintf(key, sizeof key, "k%08llu", (unsigned long long)(number * STRIDE % KEYS));
    sqlite3_bind_blob(call, 1, key, 9, SQLITE_TRANSIENT);
}

static uint32_t shuffled(uint32_t number, uint32_t count) {
    return count ? (uint32_t)(number * 2654435761u) % count : 0;
}

int main(int count, char **words) {
    if (count != 4) {
        fprintf(stderr, "usage: trees_sqlite PUTS GETS RANGES\n");
        return 1;
    }
    uint32_t puts = strtoul(words[1], NULL, 10);
    uint32_t gets = strtoul(words[2], NULL, 10);
    uint32_t ranges = strtoul(words[3], NULL, 10);
    sqlite3 *store;
    sqlite3_stmt *put, *get, *range;
    char value[100];
    memset(value, 'v', sizeof value);
    must(sqlite3_open(":memory:", &store), SQLITE_OK, store);
    must(sqlite3_exec(store, "create table pairs (k blob primary key, v blob) without rowid; begin", NULL, NULL, NULL), SQLITE_OK, store);
    must(sqlite3_prepare_v2(store, "insert or replace into pairs values (?1, ?2)", -1, &put, NULL), SQLITE_OK, store);
    must(sqlite3_prepare_v2(store, "select v from pairs where k = ?1", -1, &get, NULL), SQLITE_OK, store);
    must(sqlite3_prepare_v2(store, "select k, v from pairs where k > ?1 order by k limit 64", -1, &range, NULL), SQLITE_OK, store);
    double start = seconds();
    for (uint32_t i = 0; i < puts; i++) {
        bind_key(put, i);
        sqlite3_bind_blob(put, 2, value, sizeof value, SQLITE_STATIC);
        must(sqlite3_step(put), SQLITE_DONE, store);
        sqlite3_reset(put);
    }
    double put_end = seconds();
    uint32_t found = 0;
    for (uint32_t i = 0; i < gets; i++) {
        bind_key(get, shuffled(i, puts));
        if (sqlite3_step(get) == SQLITE_ROW && sqlite3_column_bytes(get, 0) == (int)sizeof value)
            found++;
        sqlite3_reset(get);
    }
    double get_end = seconds();
    uint64_t pairs = 0;
    for (uint32_t i = 0; i < ranges; i++) {
        bind_key(range, shuffled(i, puts));
        while (sqlite3_step(range) == SQLITE_ROW)
            pairs += sqlite3_column_bytes(range, 1) == (int)sizeof value;
        sqlite3_reset(range);
    }
    double range_end = seconds();
    fprintf(stderr, "sqlite: found %u, pairs in ranges %llu\n", found, (unsigned long long)pairs);
    printf("%.6f %.6f %.6f\n", put_end - start, get_end - put_end, range_end - get_end);
    return 0;
}
