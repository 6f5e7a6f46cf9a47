/* The rows that `moo` writes and reads, written and read by the machine's own SQLite.
 *
 *     cc -O2 -o sqlite_rows sqlite_rows.c -lsqlite3
 *     sqlite_rows batches FILE PAGE COUNT    a new file, #4 is made, and COUNT transactions give it another name
 *     sqlite_rows pairs FILE PAGE COUNT      a new file, and COUNT objects with a slot each, 500 of them a transaction
 *     sqlite_rows load FILE PAGE COUNT       the same rows in one transaction
 *     sqlite_rows read FILE                  each row of a file, in the order of the keys
 *
 * Journal, syncs and checkpoints are those of the sqlite crate: a write-ahead log with one sync a commit, a checkpoint past 1,000 pages
 * of log, and the file locked for one program. PAGE is the size of a page in bytes: SQLite makes 4,096 by itself, and `moo` 1,024. Each
 * statement is prepared once. A new row is put by INSERT, and a row that is there is written over by UPDATE, as `moo` does. Prints to
 * standard error how many batches, objects or rows there were, the microseconds that they took, and how many that is a second.
 */
#include <sqlite3.h>
#include <stdarg.h>
#include <stdint.h>
#include <stdio.h>
#include <stdlib.h>
#include <string.h>
#include <time.h>

enum { OBJECTS_A_BATCH = 500, NAME_SIZE = 32 };

static const char *const TABLES =
    "CREATE TABLE head (id INTEGER NOT NULL PRIMARY KEY, version INTEGER NOT NULL, seq INTEGER NOT NULL, top INTEGER NOT NULL,"
    " next_prop INTEGER NOT NULL, next_verb INTEGER NOT NULL) STRICT;"
    "CREATE TABLE object (n INTEGER NOT NULL PRIMARY KEY, name TEXT NOT NULL, owner INTEGER NOT NULL, parent INTEGER NOT NULL,"
    " location INTEGER NOT NULL, player INTEGER NOT NULL, programmer INTEGER NOT NULL, wizard INTEGER NOT NULL, r INTEGER NOT NULL,"
    " w INTEGER NOT NULL, f INTEGER NOT NULL, accept TEXT NOT NULL) STRICT;"
    "CREATE TABLE prop (id INTEGER NOT NULL PRIMARY KEY, definer INTEGER NOT NULL, name TEXT NOT NULL) STRICT;"
    "CREATE TABLE slot (object INTEGER NOT NULL, prop INTEGER NOT NULL, owner INTEGER NOT NULL, bits TEXT NOT NULL, value TEXT NOT NULL,"
    " PRIMARY KEY (object, prop)) STRICT;"
    "CREATE TABLE verb (object INTEGER NOT NULL, id INTEGER NOT NULL, names TEXT NOT NULL, owner INTEGER NOT NULL, bits TEXT NOT NULL,"
    " dobj TEXT NOT NULL, prep TEXT NOT NULL, iobj TEXT NOT NULL, PRIMARY KEY (object, id)) STRICT;"
    "CREATE TABLE slot2 (object INTEGER NOT NULL, prop INTEGER NOT NULL, owner INTEGER NOT NULL, bits INTEGER NOT NULL,"
    " value TEXT NOT NULL, PRIMARY KEY (object, prop)) STRICT;"
    "CREATE TABLE petition (id INTEGER NOT NULL PRIMARY KEY, who INTEGER NOT NULL, calls TEXT NOT NULL) STRICT;"
    "CREATE TABLE petition_head (id INTEGER NOT NULL PRIMARY KEY, next_petition INTEGER NOT NULL) STRICT;";

/* The rows of a new world, in which #1 defines a property. The first object that is added is #4. */
static const char *const OPENING =
    "INSERT INTO head VALUES (1, 2, 0, 3, 2, 1);"
    "INSERT INTO petition_head VALUES (1, 1);"
    "INSERT INTO object VALUES (0, 'System Object', 3, 1, -1, 0, 0, 0, 0, 0, 0, '');"
    "INSERT INTO object VALUES (1, 'Root Class', 3, -1, -1, 0, 0, 0, 0, 0, 1, '');"
    "INSERT INTO object VALUES (2, 'The First Room', 3, 1, -1, 0, 0, 0, 0, 0, 0, '{#1}');"
    "INSERT INTO object VALUES (3, 'Wizard', 3, 1, 2, 1, 1, 1, 0, 0, 0, '');"
    "INSERT INTO prop VALUES (1, 1, 'number');"
    "INSERT INTO slot2 VALUES (0, 1, 3, 5, ''), (1, 1, 3, 5, '0'), (2, 1, 3, 5, ''), (3, 1, 3, 5, '');";

static const char *const READS[] = {
    "SELECT id, version, seq, top, next_prop, next_verb FROM head ORDER BY id",
    "SELECT n, name, owner, parent, location, player, programmer, wizard, r, w, f, accept FROM object ORDER BY n",
    "SELECT id, definer, name FROM prop ORDER BY id",
    "SELECT object, prop, owner, bits, value FROM slot2 ORDER BY object, prop",
    "SELECT object, id, names, owner, bits, dobj, prep, iobj FROM verb ORDER BY object, id",
    "SELECT id, who, calls FROM petition ORDER BY id",
    "SELECT id, next_petition FROM petition_head ORDER BY id",
};

static sqlite3 *connection;

static void fail(const char *what)
{
    fprintf(stderr, "%s: %s\n", what, connection ? sqlite3_errmsg(connection) : "no connection");
    exit(1);
}

static void run(const char *sql)
{
    if (sqlite3_exec(connection, sql, NULL, NULL, NULL) != SQLITE_OK)
        fail(sql);
}

static sqlite3_stmt *prepared(const char *sql)
{
    sqlite3_stmt *statement;
    if (sqlite3_prepare_v3(connection, sql, -1, SQLITE_PREPARE_PERSISTENT, &statement, NULL) != SQLITE_OK)
        fail(sql);
    return statement;
}

static void done(sqlite3_stmt *statement)
{
    if (sqlite3_step(statement) != SQLITE_DONE)
        fail(sqlite3_sql(statement));
    sqlite3_reset(statement);
}

static int64_t microseconds(void)
{
    struct timespec now;
    clock_gettime(CLOCK_MONOTONIC, &now);
    return (int64_t)now.tv_sec * 1000000 + now.tv_nsec / 1000;
}

static void tell(int64_t count, const char *what, int64_t start)
{
    int64_t taken = microseconds() - start;
    if (taken < 1)
        taken = 1;
    fprintf(stderr, "%lld %s in %lld us, %lld a second\n", (long long)count, what, (long long)taken, (long long)(count * 1000000 / taken));
}

static void open_file(const char *path)
{
    if (sqlite3_open(path, &connection) != SQLITE_OK)
        fail(path);
}

static void make_file(const char *path, const char *page)
{
    char sql[64];
    open_file(path);
    snprintf(sql, sizeof sql, "PRAGMA page_size = %d", atoi(page));
    run(sql);
    run("PRAGMA locking_mode = EXCLUSIVE");
    run("PRAGMA journal_mode = WAL");
    run("PRAGMA synchronous = FULL");
    run("PRAGMA wal_autocheckpoint = 1000");
    run("BEGIN");
    run(TABLES);
    run(OPENING);
    run("COMMIT");
}

/* Writes values to parameters one after another: the object's row has its number first. */
static void bind_object(sqlite3_stmt *statement, int number, const char *name)
{
    static const int OWNER = 3, PARENT = 1, NOWHERE = -1;
    sqlite3_bind_int(statement, 1, number);
    sqlite3_bind_text(statement, 2, name, -1, SQLITE_STATIC);
    sqlite3_bind_int(statement, 3, OWNER);
    sqlite3_bind_int(statement, 4, PARENT);
    sqlite3_bind_int(statement, 5, NOWHERE);
    for (int flag = 6; flag <= 11; flag++)
        sqlite3_bind_int(statement, flag, 0);
}

static void bind_head(sqlite3_stmt *statement, int64_t seq, int top)
{
    sqlite3_bind_int64(statement, 1, seq);
    sqlite3_bind_int(statement, 2, top);
}

static const char *const PUT_OBJECT = "INSERT INTO object VALUES (?1, ?2, ?3, ?4, ?5, ?6, ?7, ?8, ?9, ?10, ?11, '')";
static const char *const PUT_SLOT = "INSERT INTO slot2 VALUES (?1, 1, 3, 5, ?2)";
static const char *const UPDATE_HEAD = "UPDATE head SET version = 2, seq = ?1, top = ?2, next_prop = 2, next_verb = 1 WHERE id = 1";
static const char *const UPDATE_OBJECT =
    "UPDATE object SET name = ?2, owner = ?3, parent = ?4, location = ?5, player = ?6, programmer = ?7, wizard = ?8, r = ?9, w = ?10,"
    " f = ?11 WHERE n = ?1";

static void batches(int count)
{
    char name[NAME_SIZE];
    sqlite3_stmt *begin = prepared("BEGIN"), *commit = prepared("COMMIT");
    sqlite3_stmt *put = prepared(PUT_OBJECT), *head = prepared(UPDATE_HEAD), *object = prepared(UPDATE_OBJECT);
    bind_object(put, 4, "");
    done(put);
    run("INSERT INTO slot2 VALUES (4, 1, 3, 5, '')");
    int64_t start = microseconds();
    for (int number = 0; number < count; number++) {
        snprintf(name, sizeof name, "Lantern %d", number);
        done(begin);
        bind_head(head, number + 2, 4);
        done(head);
        bind_object(object, 4, name);
        done(object);
        done(commit);
    }
    tell(count, "batches", start);
}

/* COUNT objects from #4 on, with a slot each, so many a transaction. */
static void pairs(int count, int each)
{
    char value[NAME_SIZE];
    sqlite3_stmt *begin = prepared("BEGIN"), *commit = prepared("COMMIT");
    sqlite3_stmt *put = prepared(PUT_OBJECT), *slot = prepared(PUT_SLOT), *head = prepared(UPDATE_HEAD);
    int64_t start = microseconds();
    for (int first = 0; first < count; first += each) {
        int end = first + each < count ? first + each : count;
        done(begin);
        bind_head(head, first / each + 1, end + 3);
        done(head);
        for (int number = first; number < end; number++) {
            bind_object(put, number + 4, "");
            done(put);
        }
        for (int number = first; number < end; number++) {
            snprintf(value, sizeof value, "%d", number);
            sqlite3_bind_int(slot, 1, number + 4);
            sqlite3_bind_text(slot, 2, value, -1, SQLITE_STATIC);
            done(slot);
        }
        done(commit);
    }
    tell(count, "objects with a slot", start);
}

static void read_all(void)
{
    int64_t rows = 0, seen = 0, start = microseconds();
    for (size_t table = 0; table < sizeof READS / sizeof *READS; table++) {
        sqlite3_stmt *statement = prepared(READS[table]);
        int columns = sqlite3_column_count(statement);
        while (sqlite3_step(statement) == SQLITE_ROW) {
            for (int at = 0; at < columns; at++) {
                if (sqlite3_column_type(statement, at) == SQLITE_INTEGER)
                    seen += sqlite3_column_int64(statement, at);
                else if (sqlite3_column_text(statement, at))
                    seen += sqlite3_column_bytes(statement, at);
            }
            rows++;
        }
        sqlite3_finalize(statement);
    }
    tell(rows, "rows", start);
    printf("%lld\n", (long long)seen);
}

int main(int count, char **words)
{
    if (count == 5 && strcmp(words[1], "batches") == 0) {
        make_file(words[2], words[3]);
        batches(atoi(words[4]));
    } else if (count == 5 && strcmp(words[1], "pairs") == 0) {
        make_file(words[2], words[3]);
        pairs(atoi(words[4]), OBJECTS_A_BATCH);
    } else if (count == 5 && strcmp(words[1], "load") == 0) {
        make_file(words[2], words[3]);
        pairs(atoi(words[4]), atoi(words[4]) > 0 ? atoi(words[4]) : 1);
    } else if (count == 3 && strcmp(words[1], "read") == 0) {
        open_file(words[2]);
        read_all();
    } else {
        fprintf(stderr, "usage: sqlite_rows batches|pairs|load FILE PAGE COUNT, or sqlite_rows read FILE\n");
        return 2;
    }
    return 0;
}
