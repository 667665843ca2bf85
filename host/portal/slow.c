#include "slow.h"
#include <pthread.h>
#include <sqlite3.h>
#include <stdio.h>
#include <stdlib.h>
#include <string.h>
#include <sys/random.h>
#include <sys/stat.h>

enum { BUSY_MILLISECONDS = 5000 };

struct slow {
  sqlite3 *writer;
  sqlite3 *reader;
  pthread_mutex_t reading; /* one reader at a time on its connection */
};

static const char layout[] =
    "PRAGMA journal_mode = WAL;"
    "PRAGMA synchronous = FULL;" /* what is committed outlives the process and the power */
    "PRAGMA foreign_keys = ON;"
    "BEGIN IMMEDIATE;"
    "CREATE TABLE IF NOT EXISTS settings(name TEXT PRIMARY KEY, value BLOB NOT NULL);"
    "CREATE TABLE IF NOT EXISTS schools(number INTEGER PRIMARY KEY, name TEXT NOT NULL,"
    " next_serial INTEGER NOT NULL DEFAULT 0);"
    "CREATE TABLE IF NOT EXISTS spent(code TEXT PRIMARY KEY, school INTEGER NOT NULL REFERENCES"
    " schools, withdrawn INTEGER NOT NULL, status INTEGER NOT NULL, at INTEGER NOT NULL)"
    " WITHOUT ROWID;"
    "CREATE TABLE IF NOT EXISTS posts(id INTEGER PRIMARY KEY AUTOINCREMENT, school INTEGER NOT NULL"
    " REFERENCES schools, status INTEGER NOT NULL, at INTEGER NOT NULL, code TEXT NOT NULL);"
    "CREATE INDEX IF NOT EXISTS posts_of_school ON posts(school, id);"
    "COMMIT;";

static bool run(sqlite3 *db, const char *sql) {
  return sqlite3_exec(db, sql, NULL, NULL, NULL) == SQLITE_OK;
}

static sqlite3_stmt *prepared(sqlite3 *db, const char *sql) {
  sqlite3_stmt *statement = NULL;
  if (sqlite3_prepare_v2(db, sql, -1, &statement, NULL) != SQLITE_OK)
    fprintf(stderr, "portal: slow list: %s\n", sqlite3_errmsg(db));
  return statement;
}

static void bind_text(sqlite3_stmt *statement, int place, const char *value) {
  sqlite3_bind_text(statement, place, value, -1, SQLITE_TRANSIENT);
}

/* Runs a statement that gives no rows and drops it. */
static slow_number finish(sqlite3 *db, sqlite3_stmt *statement) {
  int number = sqlite3_step(statement);
  slow_number answer = SLOW_OK;
  if (number != SQLITE_DONE)
    answer = sqlite3_extended_errcode(db) == SQLITE_CONSTRAINT_PRIMARYKEY ? SLOW_HELD : SLOW_FAILED;
  if (answer == SLOW_FAILED)
    fprintf(stderr, "portal: slow list: %s\n", sqlite3_errmsg(db));
  sqlite3_finalize(statement);
  return answer;
}

/* Ends a transaction: commits what went well, takes back all else. */
static slow_number end(sqlite3 *db, slow_number so_far) {
  if (so_far == SLOW_OK && run(db, "COMMIT"))
    return SLOW_OK;
  if (so_far == SLOW_OK)
    fprintf(stderr, "portal: slow list: commit: %s\n", sqlite3_errmsg(db));
  run(db, "ROLLBACK");
  return so_far == SLOW_OK ? SLOW_FAILED : so_far;
}

static sqlite3 *opened(const char *path) {
  sqlite3 *db = NULL;
  int flags = SQLITE_OPEN_READWRITE | SQLITE_OPEN_CREATE | SQLITE_OPEN_FULLMUTEX;
  if (sqlite3_open_v2(path, &db, flags, NULL) == SQLITE_OK &&
      sqlite3_busy_timeout(db, BUSY_MILLISECONDS) == SQLITE_OK && run(db, layout))
    return db;
  fprintf(stderr, "portal: %s: %s\n", path, db ? sqlite3_errmsg(db) : "no memory");
  sqlite3_close(db);
  return NULL;
}

/* A new list gets a key of its own; one that has a key keeps it. */
static bool make_key(sqlite3 *db) {
  uint8_t key[CODE_KEY];
  if (getrandom(key, sizeof key, 0) != (ssize_t)sizeof key)
    return false;
  sqlite3_stmt *statement = prepared(db, "INSERT OR IGNORE INTO settings VALUES('key', ?)");
  sqlite3_bind_blob(statement, 1, key, sizeof key, SQLITE_TRANSIENT);
  return finish(db, statement) == SLOW_OK;
}

slow *slow_open(const char *path) {
  umask(077); /* the list holds the key: for its owner's eyes only */
  slow *list = calloc(1, sizeof *list);
  if (!list)
    return NULL;
  pthread_mutex_init(&list->reading, NULL);
  list->writer = opened(path);
  list->reader = list->writer ? opened(path) : NULL;
  if (list->reader && make_key(list->writer))
    return list;
  slow_close(list);
  return NULL;
}

void slow_close(slow *list) {
  sqlite3_close(list->reader);
  sqlite3_close(list->writer);
  pthread_mutex_destroy(&list->reading);
  free(list);
}

/* The next row of a statement: SLOW_NONE after the last one. */
static slow_number read_row(sqlite3_stmt *statement) {
  int number = statement ? sqlite3_step(statement) : SQLITE_ERROR;
  return number == SQLITE_ROW ? SLOW_OK : number == SQLITE_DONE ? SLOW_NONE : SLOW_FAILED;
}

slow_number slow_key(slow *list, uint8_t key[CODE_KEY]) {
  pthread_mutex_lock(&list->reading);
  sqlite3_stmt *statement = prepared(
      list->reader, "SELECT value FROM settings WHERE name = 'key' AND length(value) = 16");
  slow_number answer = read_row(statement);
  if (answer == SLOW_OK)
    memcpy(key, sqlite3_column_blob(statement, 0), CODE_KEY);
  sqlite3_finalize(statement);
  pthread_mutex_unlock(&list->reading);
  return answer;
}

slow_number slow_find(slow *list, const char *code_text, use *found) {
  pthread_mutex_lock(&list->reading);
  sqlite3_stmt *statement =
      prepared(list->reader, "SELECT withdrawn, status, at FROM spent WHERE code = ?");
  bind_text(statement, 1, code_text);
  slow_number answer = read_row(statement);
  if (answer == SLOW_OK) {
    found->withdrawn = sqlite3_column_int(statement, 0) != 0;
    found->posted = (status)sqlite3_column_int(statement, 1);
    found->at = sqlite3_column_int64(statement, 2);
  }
  sqlite3_finalize(statement);
  pthread_mutex_unlock(&list->reading);
  return answer;
}

slow_number slow_count(slow *list, uint64_t *count) {
  pthread_mutex_lock(&list->reading);
  sqlite3_stmt *statement = prepared(list->reader, "SELECT count(*) FROM spent");
  slow_number answer = read_row(statement);
  if (answer == SLOW_OK)
    *count = (uint64_t)sqlite3_column_int64(statement, 0);
  sqlite3_finalize(statement);
  pthread_mutex_unlock(&list->reading);
  return answer;
}

static void take_school(sqlite3_stmt *row, school *into) {
  memset(into, 0, sizeof *into);
  into->number = (uint32_t)sqlite3_column_int(row, 0);
  snprintf(into->name, sizeof into->name, "%s", (const char *)sqlite3_column_text(row, 1));
  into->reported = sqlite3_column_type(row, 2) != SQLITE_NULL;
  into->posted = (status)sqlite3_column_int(row, 2);
  into->at = sqlite3_column_int64(row, 3);
}

slow_number slow_schools(slow *list, school *schools, size_t most, size_t *count) {
  pthread_mutex_lock(&list->reading);
  sqlite3_stmt *statement = prepared(
      list->reader, "SELECT number, name, status, at FROM schools LEFT JOIN posts ON posts.id ="
                    " (SELECT max(id) FROM posts WHERE school = schools.number) ORDER BY number");
  slow_number answer = read_row(statement);
  for (*count = 0; answer == SLOW_OK && *count < most; answer = read_row(statement))
    take_school(statement, &schools[(*count)++]);
  sqlite3_finalize(statement);
  pthread_mutex_unlock(&list->reading);
  return answer == SLOW_NONE ? SLOW_OK : SLOW_FAILED;
}

slow_number slow_each(slow *list, slow_visit *visit, void *with) {
  pthread_mutex_lock(&list->reading);
  sqlite3_stmt *statement = prepared(list->reader, "SELECT code FROM spent");
  slow_number answer = read_row(statement);
  for (; answer == SLOW_OK; answer = read_row(statement))
    if (!visit(with, (const char *)sqlite3_column_text(statement, 0)))
      break;
  sqlite3_finalize(statement);
  pthread_mutex_unlock(&list->reading);
  return answer == SLOW_NONE ? SLOW_OK : SLOW_FAILED;
}

slow_number slow_add_school(slow *list, uint32_t number, const char *name) {
  sqlite3_stmt *statement =
      prepared(list->writer, "INSERT INTO schools(number, name) VALUES(?, ?)"
                             " ON CONFLICT(number) DO UPDATE SET name = excluded.name");
  sqlite3_bind_int64(statement, 1, number);
  bind_text(statement, 2, name);
  return finish(list->writer, statement);
}

slow_number slow_issue(slow *list, uint32_t school, uint32_t count, uint32_t *first) {
  sqlite3_stmt *statement =
      prepared(list->writer, "UPDATE schools SET next_serial = next_serial + ?1 WHERE number = ?2"
                             " AND next_serial + ?1 <= ?3 RETURNING next_serial - ?1");
  sqlite3_bind_int64(statement, 1, count);
  sqlite3_bind_int64(statement, 2, school);
  sqlite3_bind_int64(statement, 3, CODE_SERIALS);
  slow_number answer = read_row(statement);
  if (answer == SLOW_OK) {
    *first = (uint32_t)sqlite3_column_int64(statement, 0);
    answer = read_row(statement) == SLOW_NONE ? SLOW_OK : SLOW_FAILED;
  }
  sqlite3_finalize(statement);
  return answer;
}

static slow_number hold(slow *list, const code *held, bool withdrawn, status posted, int64_t at) {
  sqlite3_stmt *statement = prepared(list->writer, "INSERT INTO spent VALUES(?, ?, ?, ?, ?)");
  bind_text(statement, 1, held->text);
  sqlite3_bind_int64(statement, 2, held->school);
  sqlite3_bind_int(statement, 3, withdrawn);
  sqlite3_bind_int(statement, 4, (int)posted);
  sqlite3_bind_int64(statement, 5, at);
  return finish(list->writer, statement);
}

static slow_number add_post(slow *list, const code *spent, status posted, int64_t at) {
  sqlite3_stmt *statement =
      prepared(list->writer, "INSERT INTO posts(school, status, at, code) VALUES(?, ?, ?, ?)");
  sqlite3_bind_int64(statement, 1, spent->school);
  sqlite3_bind_int(statement, 2, (int)posted);
  sqlite3_bind_int64(statement, 3, at);
  bind_text(statement, 4, spent->text);
  return finish(list->writer, statement);
}

slow_number slow_post(slow *list, const code *spent, status posted, int64_t at) {
  if (!run(list->writer, "BEGIN IMMEDIATE"))
    return SLOW_FAILED;
  slow_number answer = hold(list, spent, false, posted, at);
  if (answer == SLOW_OK)
    answer = add_post(list, spent, posted, at);
  return end(list->writer, answer);
}

slow_number slow_withdraw(slow *list, const code *withdrawn, int64_t at) {
  if (!run(list->writer, "BEGIN IMMEDIATE"))
    return SLOW_FAILED;
  return end(list->writer, hold(list, withdrawn, true, STATUS_OPEN, at));
}

slow_number slow_give_back(slow *list, const code *back) {
  sqlite3_stmt *statement = prepared(list->writer, "DELETE FROM spent WHERE code = ?");
  bind_text(statement, 1, back->text);
  slow_number answer = finish(list->writer, statement);
  return answer == SLOW_OK && sqlite3_changes(list->writer) == 0 ? SLOW_NONE : answer;
}
