/* A program over SQLite's interface: a database in memory with tables, indexes, triggers and views,
   some thousand rows by prepared statements, queries of each kind, and statements that are wrong.
   It writes what SQLite answers. */
#include <stdio.h>
#include <stdlib.h>
#include <string.h>
#include "sqlite3.h"

#define ROWS 3000

static sqlite3 *db;

/* The next number of a fixed sequence. */
static unsigned next_number(void)
{
    static unsigned state = 12345;
    state = state * 1103515245u + 12345u;
    return state >> 8;
}

static int print_row(void *count, int columns, char **values, char **names)
{
    int *rows = count;
    if ((*rows)++ == 0)
        for (int i = 0; i < columns; i++)
            printf("%s%s", names[i], i + 1 < columns ? "|" : "\n");
    for (int i = 0; i < columns; i++)
        printf("%s%s", values[i] ? values[i] : "NULL", i + 1 < columns ? "|" : "\n");
    return 0;
}

/* Statements, and what they answer. */
static void ask(const char *text)
{
    char *message = NULL;
    int rows = 0, result = sqlite3_exec(db, text, print_row, &rows, &message);
    printf("-- %.60s: %d, %d rows%s%s\n", text, result, rows, message ? ", " : "",
           message ? message : "");
    sqlite3_free(message);
}

static sqlite3_stmt *prepared(const char *text)
{
    sqlite3_stmt *made = NULL;
    if (sqlite3_prepare_v2(db, text, -1, &made, NULL) != SQLITE_OK) {
        printf("not prepared: %s: %s\n", text, sqlite3_errmsg(db));
        exit(1);
    }
    return made;
}

static void step_to_end(sqlite3_stmt *made)
{
    int result = sqlite3_step(made);
    if (result != SQLITE_DONE)
        printf("step: %d, %s\n", result, sqlite3_errmsg(db));
    sqlite3_reset(made);
    sqlite3_clear_bindings(made);
}

static void make_tables(void)
{
    ask("create table people(id integer primary key, name text not null, town int, "
        "born int check (born > 1800), note blob)");
    ask("create table towns(id integer primary key, name text unique collate nocase)");
    ask("create table orders(person int references people(id) on delete cascade, day int, "
        "cents int, word text default 'none', primary key (person, day)) without rowid");
    ask("create table history(what text, at int, old text, new text)");
    ask("create index people_by_town on people(town, born desc)");
    ask("create index dear on orders(cents) where cents > 5000");
    ask("create index by_letters on people(lower(substr(name, 1, 2)))");
    ask("create trigger added after insert on orders when new.cents > 9900 begin "
        "insert into history values('order', new.day, null, new.cents); end");
    ask("create trigger renamed after update of name on towns begin "
        "insert into history values('town', new.id, old.name, new.name); end");
    ask("create view spent as select p.id, p.name, t.name as place, count(*) as orders, "
        "sum(o.cents) as cents from people p join orders o on o.person = p.id "
        "left join towns t on t.id = p.town group by p.id");
    ask("create trigger spent_gone instead of delete on spent begin "
        "delete from orders where person = old.id; end");
    ask("pragma foreign_keys = on");
}

static void add_person(sqlite3_stmt *made, int number)
{
    char name[32], first = (char)('A' + next_number() % 26);
    char second = (char)('a' + next_number() % 26);
    unsigned char note[40];
    int length = (int)(next_number() % sizeof note);
    for (int i = 0; i < length; i++)
        note[i] = (unsigned char)next_number();
    snprintf(name, sizeof name, "%c%c%04d", first, second, number);
    sqlite3_bind_int(made, 1, number);
    sqlite3_bind_text(made, 2, name, -1, SQLITE_TRANSIENT);
    sqlite3_bind_int64(made, 3, next_number() % 41);
    sqlite3_bind_int(made, 4, 1900 + (int)(next_number() % 110));
    if (number % 7)
        sqlite3_bind_blob(made, 5, note, length, SQLITE_TRANSIENT);
    else
        sqlite3_bind_null(made, 5);
    step_to_end(made);
}

static void fill(void)
{
    sqlite3_stmt *town = prepared("insert into towns(name) values(?1)");
    sqlite3_stmt *person = prepared("insert into people values(?, ?, ?, ?, ?)");
    sqlite3_stmt *order = prepared("insert into orders values(:person, :day, :cents, @word) "
                                   "on conflict(person, day) do update set cents = cents + 1");
    ask("begin");
    for (int i = 0; i < 40; i++) {
        char *name = sqlite3_mprintf("Town %c%d", 'z' - i % 26, i);
        sqlite3_bind_text(town, 1, name, -1, sqlite3_free);
        step_to_end(town);
    }
    for (int i = 1; i <= ROWS / 3; i++)
        add_person(person, i);
    for (int i = 0; i < ROWS; i++) {
        sqlite3_bind_int(order, sqlite3_bind_parameter_index(order, ":person"),
                         1 + (int)(next_number() % (ROWS / 3)));
        sqlite3_bind_int(order, 2, (int)(next_number() % 365));
        sqlite3_bind_int(order, 3, (int)(next_number() % 10000));
        sqlite3_bind_text(order, 4, next_number() % 2 ? "even" : "odd", -1, SQLITE_STATIC);
        step_to_end(order);
    }
    ask("commit");
    sqlite3_finalize(town);
    sqlite3_finalize(person);
    sqlite3_finalize(order);
    printf("%lld changes, %d last\n", (long long)sqlite3_total_changes(db), sqlite3_changes(db));
}

static void query(void)
{
    ask("select count(*), min(born), max(born), sum(length(note)) from people");
    ask("select t.name, count(*) n, max(p.name) from people p join towns t on t.id = p.town "
        "group by t.id having n > 25 order by n desc, t.name limit 8");
    ask("select * from spent order by cents desc, id limit 6");
    ask("select distinct word, count(*) over (partition by word) from orders order by word");
    ask("select day, cents, sum(cents) over (order by day rows between 2 preceding and current "
        "row) from orders where person = 17 order by day");
    ask("select p.name from people p where exists (select 1 from orders o where o.person = p.id "
        "and o.cents between 9990 and 9999) order by p.name");
    ask("select name from people where town is null union select name from towns where id < 4 "
        "except select 'Town x2' order by 1");
    ask("with recursive fib(n, a, b) as (select 1, 0, 1 union all select n + 1, b, a + b from fib "
        "where n < 40) select group_concat(a, ' ') from fib");
    ask("with recursive t(x) as (values(1) union select (x * 7) % 101 from t) "
        "select count(*), sum(x), max(x) from t");
    ask("select a.town, count(*) from people a, people b where a.town = b.town and a.id < b.id "
        "and a.born = b.born group by a.town order by 2 desc, 1 limit 5");
    ask("select lower(substr(name, 1, 2)) l, count(*) from people where "
        "lower(substr(name, 1, 2)) in ('ab', 'qu', 'zz') group by l");
    ask("select name from towns where name like 'town a%' or name glob '*[13]0' order by name");
    ask("select hex(substr(note, 1, 4)), typeof(note), quote(zeroblob(3)) from people "
        "where id in (1, 7, 999) order by id");
    ask("select case when cents > 5000 then 'dear' when cents > 100 then 'fair' else 'cheap' end k,"
        " count(*) from orders group by k order by k");
    ask("select printf('%05d|%-6s|%x', 42, 'ab', 255), replace('banana', 'an', 'AN'), "
        "instr('haystack', 'st'), trim('  x '), unicode('A'), char(66, 67), abs(-9), 7 / 2, 7 % 4");
    ask("explain query plan select * from people where town = 3 order by born desc");
    ask("explain query plan select * from orders where cents > 9000");
    ask("select round(avg(cents), 3), sum(cents) / 7.0, max(cents * 1.5), 1e300 * 1e10, -0.5, "
        "cast('2.5e3x' as real), typeof(1.0), printf('%.4g|%08.3f|%e', 3.14159, -2.5, 1e-7) "
        "from orders");
    ask("select born / 10 * 10.0 as years, avg(length(name)), count(*) from people "
        "where born / 3.0 between 634.0 and 650.5 group by years order by years");
    ask("select date(0, 'unixepoch'), strftime('%Y-%m-%d %H:%M:%f', 2460000.25), "
        "julianday('2000-01-01 06:00')");
}

static void change(void)
{
    ask("update towns set name = upper(name) where id % 10 = 0");
    ask("update orders set cents = (select count(*) from people where town = day % 40) "
        "where day < 20");
    ask("delete from people where id % 5 = 0");
    ask("select count(*), sum(cents) from orders");
    ask("delete from spent where cents < 3000");
    ask("savepoint one; delete from orders; savepoint two; drop table history; rollback to one; "
        "release one; select count(*) from orders");
    ask("insert into towns(name) values('new') returning id, name");
    ask("replace into towns values(3, 'Third')");
    ask("alter table people add column gone int default 7");
    ask("alter table history rename to past");
    ask("alter table past drop column old");
    ask("update people set gone = id where town = 5; select sum(gone) from people");
    ask("create table copy as select id, name, born from people order by name");
    ask("insert into copy select * from copy where born > 1990");
    ask("reindex; analyze");
    ask("select tbl, idx, stat from sqlite_stat1 order by 1, 2");
    ask("vacuum");
    ask("pragma integrity_check; pragma foreign_key_check; pragma page_count");
    ask("select type, name, sql from sqlite_master order by type, name limit 30");
}

/* The sum of the squares, as an aggregate function. */
static void square(sqlite3_context *context, int count, sqlite3_value **values)
{
    sqlite3_int64 *sum = sqlite3_aggregate_context(context, sizeof *sum);
    if (sum && count)
        *sum += sqlite3_value_int64(values[0]) * sqlite3_value_int64(values[0]);
}

static void squares(sqlite3_context *context)
{
    sqlite3_int64 *sum = sqlite3_aggregate_context(context, 0);
    sqlite3_result_int64(context, sum ? *sum : 0);
}

static void turned(sqlite3_context *context, int count, sqlite3_value **values)
{
    const char *text = (const char *)sqlite3_value_text(values[0]);
    int length = text && count ? (int)strlen(text) : -1;
    char *made = length < 0 ? NULL : sqlite3_malloc(length + 1);
    if (!made) {
        sqlite3_result_error(context, "nothing to turn", -1);
        return;
    }
    for (int i = 0; i < length; i++)
        made[i] = text[length - 1 - i];
    made[length] = 0;
    sqlite3_result_text(context, made, length, sqlite3_free);
}

static int by_length(void *none, int left, const void *one, int right, const void *other)
{
    (void)none;
    int least = left < right ? left : right, order = memcmp(one, other, (size_t)least);
    return left != right ? left - right : order;
}

static void extend(void)
{
    sqlite3_create_function(db, "squares", 1, SQLITE_UTF8, NULL, NULL, square, squares);
    sqlite3_create_function(db, "turned", 1, SQLITE_UTF8, NULL, turned, NULL, NULL);
    sqlite3_create_collation(db, "by_length", SQLITE_UTF8, NULL, by_length);
    ask("select squares(id), turned(max(name)) from people");
    ask("select turned(null)");
    ask("select name from (select 'ccc' as name union all select 'a' union all select 'bb' union "
        "all select 'ab') order by name collate by_length");
    ask("create temp table t(x, y as (x * 2) stored, z as (x || '!')); "
        "insert into t(x) values(3), ('four'), (null), (x'35'); select * from t");
    ask("select json_extract('{\"a\":[1,2,{\"b\":\"x\"}]}', '$.a[2].b'), "
        "json_group_array(id) from people where id < 6");
    ask("select value, key from json_each('[10,\"two\",null,true]')");
}

/* A blob that is read and written in pieces. */
static void pieces(void)
{
    sqlite3_blob *blob = NULL;
    unsigned char bytes[64];
    ask("create table blobs(b); insert into blobs values(zeroblob(10000))");
    int result = sqlite3_blob_open(db, "main", "blobs", "b", 1, 1, &blob);
    for (int at = 0; result == SQLITE_OK && at + 64 <= 10000; at += 640) {
        memset(bytes, at / 640 + 1, sizeof bytes);
        result = sqlite3_blob_write(blob, bytes, sizeof bytes, at);
    }
    printf("written: %d, %d bytes\n", result, sqlite3_blob_bytes(blob));
    printf("behind: %d\n", sqlite3_blob_read(blob, bytes, sizeof bytes, 9990));
    result = sqlite3_blob_read(blob, bytes, sizeof bytes, 1260);
    printf("read: %d, %d %d\n", result, bytes[0], bytes[63]);
    sqlite3_blob_close(blob);
    ask("select length(b), hex(substr(b, 630, 20)) from blobs");
}

static void be_wrong(void)
{
    ask("select * from nowhere");
    ask("selct 1");
    ask("select 'open");
    ask("insert into people(id) values(1)");
    ask("insert into people values(1, 'too few')");
    ask("insert into people(id, name) values(1, 'twice')");
    ask("insert into people(id, name, born) values(90001, 'old', 1700)");
    ask("drop trigger added; insert into orders values(90002, 1, 1, 'nobody')");
    ask("insert into towns(name) values('TOWN Y1')");
    ask("select count(*) from people group by count(*)");
    ask("select abs(-9223372036854775807 - 1)");
    ask("create table people(x)");
    ask("with a(x) as (select 1 union all select 2) select x, y from a");
    ask("select (select 1, 2)");
    ask("select ((((((((((1))))))))) +");
    ask("commit");
    sqlite3_stmt *made = NULL;
    int result = sqlite3_prepare_v2(db, "select ?1, ?99999999", -1, &made, NULL);
    printf("prepared: %d, %s, %d\n", result, sqlite3_errmsg(db), made == NULL);
    made = prepared("select ?2 || :a");
    printf("bound: %d, %d\n", sqlite3_bind_int(made, 9, 1), sqlite3_bind_int(made, 2, 5));
    printf("step: %d, %s\n", sqlite3_step(made),
           sqlite3_column_type(made, 0) == SQLITE_NULL ? "null" : "a value");
    printf("bound behind a step: %d\n", sqlite3_bind_int(made, 2, 1));
    sqlite3_finalize(made);
}

int main(void)
{
    printf("open: %d\n", sqlite3_open(":memory:", &db));
    make_tables();
    fill();
    query();
    ask("select what, count(*), min(at), max(at) from history group by what");
    change();
    query();
    extend();
    pieces();
    be_wrong();
    printf("close: %d\n", sqlite3_close(db));
    sqlite3_shutdown();
    return 0;
}
