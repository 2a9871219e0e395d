/* A database that is written through its map, closed and opened again. */
#include <stdio.h>
#include <string.h>
#include "lmdb.h"
#define TRY(call) \
    do { \
        int rc = (call); \
        if (rc) { \
            printf("%s: %s\n", #call, mdb_strerror(rc)); \
            return 1; \
        } \
    } while (0)
static MDB_env *env;
static MDB_dbi dbi;
static int begin(unsigned flags)
{
    TRY(mdb_env_create(&env));
    TRY(mdb_env_set_mapsize(env, 524288));
    TRY(mdb_env_open(env, "./testdb", flags, 0664));
    return 0;
}
static int fill(int from, int to)
{
    MDB_txn *txn;
    TRY(mdb_txn_begin(env, NULL, 0, &txn));
    TRY(mdb_dbi_open(txn, NULL, 0, &dbi));
    for (int i = from; i < to; i++) {
        char name[32], text[200];
        sprintf(name, "key %d", i * 7919 % 1000);
        memset(text, 'a' + i % 26, sizeof text);
        MDB_val key = {strlen(name), name}, value = {(size_t)(i % 190 + 1), text};
        int rc = mdb_put(txn, dbi, &key, &value, 0);
        if (rc) {
            printf("%d: %s\n", i, mdb_strerror(rc));
            mdb_txn_abort(txn);
            return 0;
        }
    }
    TRY(mdb_txn_commit(txn));
    return 0;
}
static int list(int is_deleted)
{
    MDB_txn *txn;
    MDB_cursor *cursor;
    MDB_val key, value;
    MDB_stat st;
    unsigned long sum = 0;
    TRY(mdb_txn_begin(env, NULL, is_deleted ? 0 : MDB_RDONLY, &txn));
    TRY(mdb_dbi_open(txn, NULL, 0, &dbi));
    TRY(mdb_cursor_open(txn, dbi, &cursor));
    for (int i = 0; !mdb_cursor_get(cursor, &key, &value, MDB_NEXT); i++) {
        for (size_t at = 0; at < value.mv_size; at++)
            sum = sum * 31 + ((unsigned char *)value.mv_data)[at];
        if (i % 50 == 0)
            printf("%.*s %zu %lx\n", (int)key.mv_size, (char *)key.mv_data, value.mv_size, sum);
        if (is_deleted && i % 3)
            TRY(mdb_cursor_del(cursor, 0));
    }
    TRY(mdb_stat(txn, dbi, &st));
    printf("%zu entries, depth %u, %zu leaves\n", st.ms_entries, st.ms_depth, st.ms_leaf_pages);
    mdb_cursor_close(cursor);
    TRY(mdb_txn_commit(txn));
    return 0;
}
int main(void)
{
    for (unsigned turn = 0; turn < 4; turn++) {
        if (begin(turn % 2 ? 0 : MDB_WRITEMAP) || fill(turn * 150, turn * 150 + 300) || list(0)
            || list(turn % 2))
            return 1;
        TRY(mdb_env_sync(env, 1));
        MDB_envinfo info;
        TRY(mdb_env_info(env, &info));
        printf("%zu %zu %zu\n", info.me_mapsize, info.me_last_pgno, info.me_last_txnid);
        mdb_env_close(env);
    }
    if (begin(MDB_WRITEMAP) || fill(0, 100000))
        return 1;
    mdb_env_close(env);
    return 0;
}
