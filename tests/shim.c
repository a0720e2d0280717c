// The shim of the tests, loaded before the C library by `trying.py`. Variables say what it does; without them it does nothing.
// `torture` has another one, the disk of serve/disk.c.
//
// SHIM_TOLD   the descriptor on which it tells.
// SHIM_TELLS  `threads`: a byte for each thread that begins (b) or ends (e). `order`: for each call that has to do with files, in
//             their order, a line: a letter and the numbers of what it concerns on its file system. r reads a file, w writes to it,
//             t cuts it, s syncs it, d syncs a folder, l and n give a file a name in a folder by a link or by a rename, x looks at a
//             file or a name, c is any other; o is what is written to standard output, e to standard error.
// SHIM_AT     before the call of that order with this number, counted from 1, or before the first with this letter, somebody else
//             does what SHIM_DOES says: `grows` writes the bytes of the file SHIM_MORE behind the file SHIM_LOG, `replaces` gives
//             its name to that file, and if it says `dies`, the program itself is killed there. N is behind the first n.
// SHIM_SHORT  the write with this number, of those to files, writes half of what it is to write; later ones find no room.
// SHIM_FAILS  the calls with this letter fail, of s, d and n.
// SHIM_SORT   `call`, `memory` or `thread`: that with the number SHIM_NUMBER, counted over all threads from 1, ends otherwise than
//             well, which is told by a byte. SHIM_HOW is `fails`, or of a call `kills`: half of what it is to write is written, and
//             the process is killed.
#define _GNU_SOURCE
#include <dlfcn.h>
#include <errno.h>
#include <fcntl.h>
#include <pthread.h>
#include <signal.h>
#include <stdarg.h>
#include <stdatomic.h>
#include <stdio.h>
#include <stdlib.h>
#include <string.h>
#include <sys/stat.h>
#include <sys/syscall.h>
#include <unistd.h>

#define NEXT(name)                                                   \
  static __typeof__(&name) next;                                     \
  if (!next) next = (__typeof__(&name))dlsym(RTLD_NEXT, #name)

enum sort { NONE, CALL, MEMORY, THREAD };

static atomic_ulong counted, calls, writes;
static atomic_int has_acted;
static enum sort sort;
static unsigned long number, at_number, short_write;
static char at_letter, failing;
static int told, kills, tells_threads, tells_order;

static const char *variable(const char *name) {
  const char *text = getenv(name);
  return text ? text : "";
}

__attribute__((constructor)) static void begin(void) {
  const char *of = variable("SHIM_SORT"), *at = variable("SHIM_AT"), *tells = variable("SHIM_TELLS");
  sort = *of == 'c' ? CALL : *of == 'm' ? MEMORY : *of == 't' ? THREAD : NONE;
  number = strtoul(variable("SHIM_NUMBER"), 0, 10);
  kills = strcmp(variable("SHIM_HOW"), "kills") == 0;
  told = atoi(variable("SHIM_TOLD"));
  at_number = strtoul(at, 0, 10);
  at_letter = at_number ? 0 : *at;
  short_write = strtoul(variable("SHIM_SHORT"), 0, 10);
  failing = *variable("SHIM_FAILS");
  tells_threads = strcmp(tells, "threads") == 0;
  tells_order = strcmp(tells, "order") == 0;
}

static void say(const void *bytes, size_t count) {
  if (syscall(SYS_write, told, bytes, count) != (long)count) abort();
}

// Whether this is the one that ends otherwise than well.
static int is_met(enum sort of) {
  if (sort != of || atomic_fetch_add(&counted, 1) + 1 != number) return 0;
  say("!", 1);
  return 1;
}

static int refused_call(void) {
  if (kills) kill(getpid(), SIGKILL);
  errno = ENOSPC;
  return -1;
}

// What somebody else does.

static void grow(const char *log, const char *more) {
  char bytes[65536];
  int from = syscall(SYS_open, more, O_RDONLY), to = syscall(SYS_open, log, O_WRONLY | O_APPEND);
  ssize_t count;
  while ((count = syscall(SYS_read, from, bytes, sizeof bytes)) > 0) {
    if (syscall(SYS_write, to, bytes, count) != count) abort();
  }
  syscall(SYS_close, from);
  syscall(SYS_close, to);
}

static void act(void) {
  const char *does = variable("SHIM_DOES");
  if (strcmp(does, "dies") == 0) raise(SIGKILL);
  else if (strcmp(does, "grows") == 0) grow(getenv("SHIM_LOG"), getenv("SHIM_MORE"));
  else if (syscall(SYS_rename, getenv("SHIM_MORE"), getenv("SHIM_LOG")) != 0) abort();
}

static void act_at_letter(char letter) {
  if (at_letter == letter && !atomic_exchange(&has_acted, 1)) act();
}

// The order of calls.

static int is_file(int file) {
  struct stat found;
  return fstat(file, &found) == 0 && S_ISREG(found.st_mode);
}

static unsigned long number_of(int file) {
  struct stat found;
  return fstat(file, &found) == 0 ? found.st_ino : 0;
}

static unsigned long number_of_name(const char *path) {
  struct stat found;
  return lstat(path, &found) == 0 ? found.st_ino : 0;
}

static unsigned long number_of_folder(const char *path) {
  char folder[4096];
  snprintf(folder, sizeof folder, "%s", path);
  char *end = strrchr(folder, '/');
  if (end) *end = 0;
  return number_of_name(end ? (*folder ? folder : "/") : ".");
}

// Tells a call; whether it is to fail.
static int tell(char letter, unsigned long one, unsigned long other) {
  char line[64];
  if (!tells_order) return 0;
  int length = snprintf(line, sizeof line, "%c %lu %lu\n", letter, one, other);
  if (atomic_fetch_add(&calls, 1) + 1 == at_number) act();
  act_at_letter(letter);
  say(line, length);
  if (letter != failing) return 0;
  errno = EIO;
  return 1;
}

static int tell_synced(int file) {
  struct stat found;
  int is_folder = fstat(file, &found) == 0 && S_ISDIR(found.st_mode);
  return tell(is_folder ? 'd' : 's', number_of(file), 0);
}

int open(const char *path, int flags, ...) {
  NEXT(open);
  va_list rest;
  va_start(rest, flags);
  mode_t mode = flags & O_CREAT ? va_arg(rest, mode_t) : 0;
  va_end(rest);
  tell('c', 0, 0);
  return is_met(CALL) ? refused_call() : next(path, flags, mode);
}

ssize_t read(int file, void *bytes, size_t count) {
  NEXT(read);
  tell('r', number_of(file), 0);
  return next(file, bytes, count);
}

ssize_t pread(int file, void *bytes, size_t count, off_t at) {
  NEXT(pread);
  tell('r', number_of(file), 0);
  return next(file, bytes, count, at);
}

ssize_t write(int file, const void *bytes, size_t count) {
  NEXT(write);
  // What is said to standard error is no file's.
  if (file != 2 && is_met(CALL)) {
    if (kills) next(file, bytes, count / 2);
    return refused_call();
  }
  if (!tells_order || !is_file(file)) {
    tell(file == 1 ? 'o' : file == 2 ? 'e' : 'c', 0, 0);
    return next(file, bytes, count);
  }
  tell('w', number_of(file), 0);
  unsigned long at = atomic_fetch_add(&writes, 1) + 1;
  if (short_write == 0 || at < short_write) return next(file, bytes, count);
  if (at == short_write && count > 1) return next(file, bytes, count / 2);
  errno = ENOSPC;
  return -1;
}

off_t lseek(int file, off_t to, int from) {
  NEXT(lseek);
  tell('c', 0, 0);
  return next(file, to, from);
}

int ftruncate(int file, off_t length) {
  NEXT(ftruncate);
  tell('t', number_of(file), 0);
  return is_met(CALL) ? refused_call() : next(file, length);
}

int fsync(int file) {
  NEXT(fsync);
  if (tell_synced(file)) return -1;
  return is_met(CALL) ? refused_call() : next(file);
}

int fdatasync(int file) {
  NEXT(fdatasync);
  return tell_synced(file) ? -1 : next(file);
}

int flock(int file, int how) {
  int (*next)(int, int) = dlsym(RTLD_NEXT, "flock");
  tell('c', 0, 0);
  return next(file, how);
}

int statx(int in, const char *path, int flags, unsigned mask, struct statx *found) {
  NEXT(statx);
  if (tells_order) tell('x', flags & AT_EMPTY_PATH ? number_of(in) : number_of_name(path), 0);
  return next(in, path, flags, mask, found);
}

ssize_t readlink(const char *path, char *out, size_t count) {
  NEXT(readlink);
  return is_met(CALL) ? refused_call() : next(path, out, count);
}

int fchown(int file, uid_t owner, gid_t group) {
  NEXT(fchown);
  return is_met(CALL) ? refused_call() : next(file, owner, group);
}

int fchmod(int file, mode_t mode) {
  NEXT(fchmod);
  return is_met(CALL) ? refused_call() : next(file, mode);
}

int link(const char *from, const char *to) {
  NEXT(link);
  tell('l', number_of_name(from), number_of_folder(to));
  return is_met(CALL) ? refused_call() : next(from, to);
}

int linkat(int in, const char *from, int to_in, const char *to, int flags) {
  NEXT(linkat);
  return is_met(CALL) ? refused_call() : next(in, from, to_in, to, flags);
}

int rename(const char *from, const char *to) {
  NEXT(rename);
  if (tell('n', number_of_name(from), number_of_folder(to))) return -1;
  int answer = is_met(CALL) ? refused_call() : next(from, to);
  act_at_letter('N');
  return answer;
}

int unlink(const char *path) {
  NEXT(unlink);
  tell('c', 0, 0);
  return next(path);
}

int close(int file) {
  NEXT(close);
  return is_met(CALL) ? refused_call() : next(file);
}

// Memory and threads.

void *malloc(size_t size) {
  static void *(*next)(size_t);
  if (!next) next = dlsym(RTLD_NEXT, "malloc");
  return is_met(MEMORY) ? 0 : next(size);
}

void *realloc(void *old, size_t size) {
  static void *(*next)(void *, size_t);
  if (!next) next = dlsym(RTLD_NEXT, "realloc");
  return is_met(MEMORY) ? 0 : next(old, size);
}

struct work {
  void *(*body)(void *);
  void *argument;
};

static void end(void *unused) {
  (void)unused;
  say("e", 1);
}

static void *run(void *given) {
  struct work work = *(struct work *)given;
  void *result;
  free(given);
  pthread_cleanup_push(end, 0);
  result = work.body(work.argument);
  pthread_cleanup_pop(1);
  return result;
}

int pthread_create(pthread_t *thread, const pthread_attr_t *attributes, void *(*body)(void *), void *argument) {
  static int (*next)(pthread_t *, const pthread_attr_t *, void *(*)(void *), void *);
  if (!next) next = dlsym(RTLD_NEXT, "pthread_create");
  if (is_met(THREAD)) return EAGAIN;
  if (!tells_threads) return next(thread, attributes, body, argument);
  struct work *work = malloc(sizeof *work);
  if (work == NULL) return EAGAIN;
  *work = (struct work){body, argument};
  say("b", 1);
  return next(thread, attributes, run, work);
}
