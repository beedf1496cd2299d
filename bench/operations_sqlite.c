/* Omap puts and gets, and small writes over bytes, in SQLite in memory, with the names, keys and values of
   crates/sea_ops_trial: a table of objects with their bytes, and one of keys, both without rowid where no blob
   handle needs one; prepared statements, a blob handle that is moved to the row, and one transaction. Prints
   the processor seconds of each. */
#include <sqlite3.h>
#include <stdint.h>
#include <stdio.h>
#include <stdlib.h>
#include <string.h>
#include <time.h>

enum { OBJECTS = 16, OBJECT_KEYS = 10000, VALUE = 100, FILLED = 65536, WRITTEN = 64 };

static double seconds(void) {
    struct timespec now;
    clock_gettime(CLOCK_PROCESS_CPUTIME_ID, &now);
    return now.tv_sec + now.tv_nsec / 1e9;
}

static void must(int is, int wanted, sqlite3 *store) {
    if (is != wanted) {
        fprintf(stderr, "sqlite: %s\n", sqlite3_errmsg(store));
        exit(1);
    }
}

static uint32_t scattered(uint32_t number) { return number * 2654435761u; }

static void bind_name(sqlite3_stmt *call, uint32_t number) {
    char name[24];
    int length = snprintf(name, sizeof name, "object%02u", number % OBJECTS);
    sqlite3_bind_blob(call, 1, name, length, SQLITE_TRANSIENT);
}

static void bind_key(sqlite3_stmt *call, uint32_t number) {
    char key[24];
    int length = snprintf(key, sizeof key, "key%010u", scattered(number / OBJECTS % OBJECT_KEYS));
    bind_name(call, number);
    sqlite3_bind_blob(call, 2, key, length, SQLITE_TRANSIENT);
}

static sqlite3_stmt *prepared(sqlite3 *store, const char *text) {
    sqlite3_stmt *call;
    must(sqlite3_prepare_v2(store, text, -1, &call, NULL), SQLITE_OK, store);
    return call;
}

static void run(sqlite3 *store, sqlite3_stmt *call) {
    must(sqlite3_step(call), SQLITE_DONE, store);
    sqlite3_reset(call);
}

int main(int count, char **words) {
    if (count != 4) {
        fprintf(stderr, "usage: operations_sqlite SETS GETS WRITES\n");
        return 1;
    }
    uint32_t sets = strtoul(words[1], NULL, 10);
    uint32_t gets = strtoul(words[2], NULL, 10);
    uint32_t writes = strtoul(words[3], NULL, 10);
    static char value[VALUE], filled[FILLED], written[WRITTEN];
    memset(value, 'v', sizeof value);
    memset(filled, 'f', sizeof filled);
    memset(written, 'w', sizeof written);
    sqlite3 *store;
    must(sqlite3_open(":memory:", &store), SQLITE_OK, store);
    must(sqlite3_exec(store,
                      "create table objects (name blob unique, bytes blob);"
                      "create table keys (name blob, k blob, v blob, primary key (name, k)) without rowid;"
                      "begin",
                      NULL, NULL, NULL),
         SQLITE_OK, store);
    sqlite3_stmt *touch = prepared(store, "insert into objects values (?1, x'')");
    sqlite3_stmt *find = prepared(store, "select rowid from objects where name = ?1");
    sqlite3_stmt *put = prepared(store, "insert or replace into keys values (?1, ?2, ?3)");
    sqlite3_stmt *get = prepared(store, "select v from keys where name = ?1 and k = ?2");
    sqlite3_stmt *fill = prepared(store, "update objects set bytes = ?2 where name = ?1");
    for (uint32_t i = 0; i < OBJECTS; i++) {
        bind_name(touch, i);
        run(store, touch);
    }
    double start = seconds();
    for (uint32_t i = 0; i < sets; i++) {
        bind_key(put, i);
        sqlite3_bind_blob(put, 3, value, sizeof value, SQLITE_STATIC);
        run(store, put);
    }
    double set_end = seconds();
    uint32_t found = 0;
    for (uint32_t i = 0; i < gets; i++) {
        bind_key(get, sets ? scattered(i) % sets : 0);
        if (sqlite3_step(get) == SQLITE_ROW && sqlite3_column_bytes(get, 0) == (int)sizeof value)
            found++;
        sqlite3_reset(get);
    }
    double get_end = seconds();
    for (uint32_t i = 0; writes && i < OBJECTS; i++) {
        bind_name(fill, i);
        sqlite3_bind_blob(fill, 2, filled, sizeof filled, SQLITE_STATIC);
        run(store, fill);
    }
    sqlite3_blob *bytes = NULL;
    for (uint32_t i = 0; i < writes; i++) {
        bind_name(find, i);
        must(sqlite3_step(find), SQLITE_ROW, store);
        sqlite3_int64 row = sqlite3_column_int64(find, 0);
        sqlite3_reset(find);
        if (bytes)
            must(sqlite3_blob_reopen(bytes, row), SQLITE_OK, store);
        else
            must(sqlite3_blob_open(store, "main", "objects", "bytes", row, 1, &bytes), SQLITE_OK, store);
        must(sqlite3_blob_write(bytes, written, sizeof written, scattered(i) % (FILLED - WRITTEN)), SQLITE_OK, store);
    }
    double write_end = seconds();
    fprintf(stderr, "sqlite: found %u\n", found);
    printf("%.6f %.6f %.6f\n", set_end - start, get_end - set_end, write_end - get_end);
    return 0;
}
