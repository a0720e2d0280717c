// Times units that put one element of 100 bytes into a queue, and units that take one out, in turns: through the pipes of a served log, through
// a table of SQLite, and as bytes that are appended and synced.
//
// serving HOW COUNT PATH [WORD ..]   does COUNT units of each kind and prints the seconds, and the bytes of PATH. HOW is
//   raw                              the bytes that a served log has of them, appended; synced behind each unit
//   sqlite-full, sqlite-off          SQLite in WAL, a commit each, synchronous FULL or OFF
//   sqlite-off-8                     the same, eight units of each kind in a transaction
//   serve-1, serve-8, serve-100      by the program that the words start: so many units in one write, each write when the last is answered
//   loop-8                           by it: eight clients, each of which sends its next unit when its last is answered
//   later-1, later-8                 as `serve`, with commits that need not be safe; settled at the end
#include <fcntl.h>
#include <sqlite3.h>
#include <stdio.h>
#include <stdlib.h>
#include <string.h>
#include <sys/stat.h>
#include <sys/wait.h>
#include <time.h>
#include <unistd.h>

// The frames of a unit that puts in, and of one that takes out.
enum { PUT = 249, TAKE = 148, PAYLOAD = 100, CLIENTS = 8 };

static void expect(int is_so, const char *what) {
  if (is_so) return;
  perror(what);
  exit(1);
}

static double now(void) {
  struct timespec at;
  clock_gettime(CLOCK_MONOTONIC, &at);
  return at.tv_sec + at.tv_nsec * 1e-9;
}

static void raw(long count, const char *path) {
  static char bytes[PUT];
  int file = open(path, O_WRONLY | O_CREAT | O_TRUNC, 0666);
  expect(file >= 0, path);
  memset(bytes, 'a', sizeof bytes);
  for (long unit = 0; unit < 2 * count; unit++) {
    int length = unit % 2 ? TAKE : PUT;
    expect(write(file, bytes, length) == length, "write");
    expect(fdatasync(file) == 0, "fdatasync");
  }
  close(file);
}

// --- SQLite ----------------------------------------------------------------------------------------------------------

static void run(sqlite3 *db, const char *line) {
  if (sqlite3_exec(db, line, 0, 0, 0) == SQLITE_OK) return;
  fprintf(stderr, "%s: %s\n", line, sqlite3_errmsg(db));
  exit(1);
}

static sqlite3_stmt *prepared(sqlite3 *db, const char *line) {
  sqlite3_stmt *made;
  expect(sqlite3_prepare_v2(db, line, -1, &made, 0) == SQLITE_OK, line);
  return made;
}

static void step(sqlite3_stmt *it) {
  int answer;
  while ((answer = sqlite3_step(it)) == SQLITE_ROW) continue;
  expect(answer == SQLITE_DONE, "step");
  sqlite3_reset(it);
}

static void sqlite(long count, const char *path, const char *synchronous, long at_once) {
  static char payload[PAYLOAD], pragma[64];
  sqlite3 *db;
  expect(sqlite3_open(path, &db) == SQLITE_OK, path);
  run(db, "PRAGMA journal_mode=WAL");
  snprintf(pragma, sizeof pragma, "PRAGMA synchronous=%s", synchronous);
  run(db, pragma);
  run(db, "CREATE TABLE jobs(id INTEGER PRIMARY KEY, priority INTEGER, payload BLOB)");
  run(db, "CREATE INDEX best ON jobs(priority DESC, id)");
  sqlite3_stmt *put = prepared(db, "INSERT INTO jobs(priority, payload) VALUES(0, ?)");
  sqlite3_stmt *take = prepared(db, "DELETE FROM jobs WHERE id = (SELECT id FROM jobs ORDER BY priority DESC, id LIMIT 1) RETURNING payload");
  memset(payload, 'a', sizeof payload);
  sqlite3_bind_blob(put, 1, payload, sizeof payload, SQLITE_STATIC);
  for (long done = 0; done < 2 * count; done++) {
    if (done % at_once == 0) run(db, "BEGIN IMMEDIATE");
    step(done % 2 ? take : put);
    if (done % at_once == at_once - 1) run(db, "COMMIT");
  }
  sqlite3_finalize(put);
  sqlite3_finalize(take);
  sqlite3_close(db);
}

// --- a served log ------------------------------------------------------------------------------------------------------

static int to, from;
static char payload[2 * PAYLOAD + 1];
static const char *later = "";

static pid_t begin(char **words) {
  int in[2], out[2];
  expect(pipe(in) == 0 && pipe(out) == 0, "pipe");
  pid_t child = fork();
  if (child == 0) {
    dup2(in[0], 0);
    dup2(out[1], 1);
    for (int file = 3; file < 16; file++) close(file);
    execvp(words[0], words);
    expect(0, words[0]);
  }
  close(in[0]);
  close(out[1]);
  to = in[1];
  from = out[0];
  return child;
}

static void send_all(const char *text, size_t length) {
  while (length) {
    ssize_t done = write(to, text, length);
    expect(done > 0, "write");
    text += done;
    length -= done;
  }
}

// No answer that is hoped for begins as a refusal, an error or a fault do; `queue 0` is one to a definition.
static void expect_done(const char *line) {
  if (line[0] == 'r' || line[0] == 's' || (line[0] == 'e' && line[1] == 'r')) expect(0, "refused");
}

// Reads what is there: how many answers that is. What begins one more is kept for the next time.
static long answers(void) {
  static char text[1 << 16];
  static size_t held;
  ssize_t count = read(from, text + held, sizeof text - held);
  expect(count > 0, "read");
  const char *line = text, *end = text + held + count, *found;
  long lines = 0;
  while ((found = memchr(line, '\n', end - line))) {
    expect_done(line);
    line = found + 1;
    lines++;
  }
  held = end - line;
  memmove(text, line, held);
  return lines;
}

static void hear(long lines) {
  while (lines > 0) lines -= answers();
}

static char *put(char *to, const char *text, size_t length) {
  memcpy(to, text, length);
  return to + length;
}

#define PUT_TEXT(to, text) put(to, text, sizeof(text) - 1)

// The lines of a unit. Nothing here is to cost much beside what the program does for them.
static int unit_of(char *text, long unit) {
  char digits[24], *number = digits + sizeof digits, *at = text;
  for (long rest = unit; rest; rest /= 10) *--number = '0' + rest % 10;
  size_t length = digits + sizeof digits - number;
  at = put(PUT_TEXT(at, "begin "), number, length);
  if (unit % 2) {
    at = put(PUT_TEXT(at, "\nenqueue "), number, length);
    at = put(PUT_TEXT(at, " jobs 0 - 0 "), payload, 2 * PAYLOAD);
  } else {
    at = PUT_TEXT(put(PUT_TEXT(at, "\ndequeue "), number, length), " jobs - 0");
  }
  at = put(PUT_TEXT(at, "\ncommit "), number, length);
  at = PUT_TEXT(put(at, later, strlen(later)), "\n");
  return at - text;
}

// So many units in one write, answered before the next.
static void by(long count, long at_once) {
  static char text[1 << 16];
  for (long unit = 1; unit <= 2 * count;) {
    long length = 0, first = unit;
    for (; unit < first + at_once && unit <= 2 * count; unit++) length += unit_of(text + length, unit);
    send_all(text, length);
    hear(3 * (unit - first));
  }
}

// Clients that each have one unit in flight.
static void closed_loop(long count) {
  static char text[1 << 16];
  long sent = 0, heard = 0;
  while (heard < 6 * count) {
    long length = 0;
    while (sent < 2 * count && sent - heard / 3 < CLIENTS) length += unit_of(text + length, ++sent);
    send_all(text, length);
    heard += answers();
  }
}

static double served(const char *how, long count, char **words) {
  long at_once = atol(strchr(how, '-') + 1);
  int status;
  memset(payload, 'a', 2 * PAYLOAD);
  if (strncmp(how, "later", 5) == 0) later = " later";
  pid_t child = begin(words);
  char greeting;
  do expect(read(from, &greeting, 1) == 1, "no greeting");
  while (greeting != '\n');
  send_all("define jobs 0 -\n", 16);
  hear(1);
  double begun = now();
  if (strncmp(how, "loop", 4) == 0) closed_loop(count);
  else by(count, at_once);
  send_all("settle\n", 7);
  hear(1);
  double took = now() - begun;
  close(to);
  waitpid(child, &status, 0);
  expect(status == 0, "status");
  return took;
}

int main(int count, char **words) {
  if (count < 4) return 2;
  const char *how = words[1], *path = words[3];
  long units = atol(words[2]);
  double begun = now(), took = 0;
  if (strcmp(how, "raw") == 0) raw(units, path);
  else if (strcmp(how, "sqlite-full") == 0) sqlite(units, path, "FULL", 1);
  else if (strcmp(how, "sqlite-off") == 0) sqlite(units, path, "OFF", 1);
  else if (strcmp(how, "sqlite-off-8") == 0) sqlite(units, path, "OFF", 2 * CLIENTS);
  else took = served(how, units, words + 4);
  if (took == 0) took = now() - begun;
  struct stat found;
  expect(stat(path, &found) == 0, path);
  printf("%.6f %ld\n", took, (long)found.st_size);
  return 0;
}
