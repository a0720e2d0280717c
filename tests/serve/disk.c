// A disk that the torture test looks at, loaded before the C library. It knows of each file in one folder what a power cut would leave: the
// pages that were synced, its length then, and the names that were synced. Variables say which of the calls on these files ends otherwise than
// well; without them it does nothing.
//
// DISK_FOLDER  the folder whose files it watches, by its real path.
// DISK_IMAGES  where it keeps what is on the disk: `N` is the image of the file with the number N on its file system, `N.dirty` has a byte
//              for each page that was written and not synced, and `names` the names in the folder when that was synced last, each with
//              its number. All of it stays when the process is killed, as a disk does.
// DISK_FAULT   what happens at the call DISK_AT, counted from 1 over writes, cuts, syncs, and names that files get or lose:
//              kills   the process is killed before it;     halves  it writes half, or does nothing, and the process is killed;
//              fails   it fails (EIO), once;                full    it writes half, and from then on there is no room (ENOSPC);
//              stuck   it fails, and so does each cut of a file from then on.
// DISK_BEGINS  if it is there, calls are counted from when a file is made whose name ends with it.
//              A sync that fails drops the pages that it was to write: the system calls them clean, and no later sync writes them.
#define _GNU_SOURCE
#include <dirent.h>
#include <dlfcn.h>
#include <errno.h>
#include <fcntl.h>
#include <signal.h>
#include <stdarg.h>
#include <stdio.h>
#include <stdlib.h>
#include <string.h>
#include <sys/stat.h>
#include <sys/syscall.h>
#include <unistd.h>

#define NEXT(name)                                                   \
  static __typeof__(&name) next;                                     \
  if (!next) next = (__typeof__(&name))dlsym(RTLD_NEXT, #name)
#define PAGE 4096

static const char *folder, *images, *fault = "", *begins;
static unsigned long at, calls;
static int is_full, is_stuck;

__attribute__((constructor)) static void begin(void) {
  folder = getenv("DISK_FOLDER");
  images = getenv("DISK_IMAGES");
  if (getenv("DISK_FAULT")) fault = getenv("DISK_FAULT");
  begins = getenv("DISK_BEGINS");
  if (getenv("DISK_AT")) at = strtoul(getenv("DISK_AT"), 0, 10);
}

static int is(const char *what) { return strcmp(fault, what) == 0; }

// The number of the file, if it is one in the folder, and the folder's own if it is that; else 0.
static unsigned long watched(int file, int *is_folder) {
  char link[64], path[4096];
  struct stat found;
  if (!folder) return 0;
  snprintf(link, sizeof link, "/proc/self/fd/%d", file);
  ssize_t length = syscall(SYS_readlink, link, path, sizeof path - 1);
  if (length <= 0) return 0;
  path[length] = 0;
  size_t known = strlen(folder);
  *is_folder = strcmp(path, folder) == 0;
  int is_inside = strncmp(path, folder, known) == 0 && path[known] == '/' && !strchr(path + known + 1, '/');
  if ((!*is_folder && !is_inside) || fstat(file, &found) != 0) return 0;
  return found.st_ino;
}

static int image_of(unsigned long number, const char *kind) {
  char path[4096];
  snprintf(path, sizeof path, "%s/%lu%s", images, number, kind);
  int file = syscall(SYS_open, path, O_RDWR | O_CREAT, 0666);
  if (file < 0) abort();
  return file;
}

static void mark(unsigned long number, off_t from, off_t to) {
  int dirty = image_of(number, ".dirty");
  for (off_t page = from / PAGE; page * PAGE < to; page++) {
    if (syscall(SYS_pwrite64, dirty, "d", 1, page) != 1) abort();
  }
  syscall(SYS_close, dirty);
}

static off_t length_of(int file) {
  struct stat found;
  if (fstat(file, &found) != 0) abort();
  return found.st_size;
}

// What was written is on the disk now; or, if the sync failed, it never will be by itself.
static void settle(int file, unsigned long number, int is_lost) {
  static char page[PAGE];
  int dirty = image_of(number, ".dirty"), image = image_of(number, "");
  off_t pages = length_of(dirty);
  char it;
  for (off_t at_page = 0; at_page < pages; at_page++) {
    if (syscall(SYS_pread64, dirty, &it, 1, at_page) != 1 || it != 'd' || is_lost) continue;
    ssize_t count = syscall(SYS_pread64, file, page, PAGE, at_page * PAGE);
    if (count > 0 && syscall(SYS_pwrite64, image, page, count, at_page * PAGE) != count) abort();
  }
  syscall(SYS_ftruncate, dirty, 0);
  if (!is_lost) syscall(SYS_ftruncate, image, length_of(file));
  syscall(SYS_close, dirty);
  syscall(SYS_close, image);
}

static void settle_names(void) {
  char path[4096], line[512];
  snprintf(path, sizeof path, "%s/names", images);
  int names = syscall(SYS_open, path, O_WRONLY | O_CREAT | O_TRUNC, 0666);
  DIR *of = opendir(folder);
  for (struct dirent *it; of && (it = readdir(of));) {
    if (it->d_name[0] == '.') continue;
    int length = snprintf(line, sizeof line, "%lu %s\n", (unsigned long)it->d_ino, it->d_name);
    if (syscall(SYS_write, names, line, length) != length) abort();
  }
  if (of) closedir(of);
  syscall(SYS_close, names);
}

// Whether this call is the one that ends otherwise than well.
static int is_met(int halves) {
  if (begins || ++calls != at) return 0;
  if (is("kills") || (is("halves") && !halves)) kill(getpid(), SIGKILL);
  is_full = is("full");
  is_stuck = is("stuck");
  return 1;
}

static int refused(int why) {
  errno = why;
  return -1;
}

// Writes as much as may be written, by a call that goes on from where the file stands if `to` is -1.
static ssize_t written(int file, const void *bytes, size_t count, off_t to) {
  int is_folder;
  unsigned long number = watched(file, &is_folder);
  size_t some = count;
  if (number) {
    int was_full = is_full;
    if (was_full) return refused(ENOSPC);
    if (is_met(count > 1)) {
      if (is("fails") || is("stuck") || count < 2) return refused(is("full") ? ENOSPC : EIO);
      some = count / 2;
    }
  }
  off_t from = !number ? 0 : to >= 0 ? to : syscall(SYS_lseek, file, 0, SEEK_CUR);
  if (number && to < 0 && (fcntl(file, F_GETFL) & O_APPEND)) from = length_of(file);
  ssize_t done = to < 0 ? syscall(SYS_write, file, bytes, some) : syscall(SYS_pwrite64, file, bytes, some, to);
  if (number && done > 0) mark(number, from, from + done);
  if (number && some < count && is("halves")) kill(getpid(), SIGKILL);
  return done;
}

ssize_t write(int file, const void *bytes, size_t count) { return written(file, bytes, count, -1); }
ssize_t pwrite(int file, const void *bytes, size_t count, off_t to) { return written(file, bytes, count, to); }
ssize_t pwrite64(int file, const void *bytes, size_t count, off_t to) { return written(file, bytes, count, to); }

static int cut(int file, off_t length) {
  int is_folder;
  unsigned long number = watched(file, &is_folder);
  if (number && (is_stuck || (is_met(0) && !is("full")))) return refused(EIO);
  return syscall(SYS_ftruncate, file, length);
}

int ftruncate(int file, off_t length) { return cut(file, length); }
int ftruncate64(int file, off_t length) { return cut(file, length); }

static int synced(int file, long call) {
  int is_folder;
  unsigned long number = watched(file, &is_folder);
  if (!number) return syscall(call, file);
  if (is_met(0) && !is("full")) {
    if (!is_folder) settle(file, number, 1);
    return refused(EIO);
  }
  if (is_folder) settle_names();
  else settle(file, number, 0);
  return 0;
}

int fsync(int file) { return synced(file, SYS_fsync); }
int fdatasync(int file) { return synced(file, SYS_fdatasync); }

// Whether a path is of a name in the folder.
static int is_within(const char *path) {
  char parent[4096], real[4096];
  const char *end = strrchr(path, '/');
  if (!folder || !end) return 0;
  snprintf(parent, sizeof parent, "%.*s", (int)(end - path), path);
  return realpath(parent, real) && strcmp(real, folder) == 0;
}

// Whether a name is refused that is to be given or taken.
static int is_refused(const char *path) { return is_within(path) && is_met(0) && !is("full"); }

int link(const char *from, const char *to) { return is_refused(to) ? refused(EIO) : syscall(SYS_link, from, to); }
int rename(const char *from, const char *to) { return is_refused(to) ? refused(EIO) : syscall(SYS_rename, from, to); }
int unlink(const char *path) { return is_refused(path) ? refused(EIO) : syscall(SYS_unlink, path); }

static int ends_with(const char *path, const char *end) {
  size_t length = strlen(path), known = strlen(end);
  return length >= known && strcmp(path + length - known, end) == 0;
}

// A file that begins has nothing on the disk, also if its number was another's.
static int opened(const char *path, int flags, mode_t mode) {
  if (begins && (flags & O_CREAT) && ends_with(path, begins)) begins = 0;
  int file = syscall(SYS_openat, AT_FDCWD, path, flags, mode), is_folder;
  unsigned long number = file >= 0 && (flags & O_CREAT) ? watched(file, &is_folder) : 0;
  if (number && !is_folder && length_of(file) == 0) {
    int dirty = image_of(number, ".dirty"), image = image_of(number, "");
    syscall(SYS_ftruncate, dirty, 0);
    syscall(SYS_ftruncate, image, 0);
    syscall(SYS_close, dirty);
    syscall(SYS_close, image);
  }
  return file;
}

#define OPENING(name)                                                \
  int name(const char *path, int flags, ...) {                       \
    va_list rest;                                                    \
    va_start(rest, flags);                                           \
    mode_t mode = flags & O_CREAT ? va_arg(rest, mode_t) : 0;        \
    va_end(rest);                                                    \
    return opened(path, flags, mode);                                \
  }

OPENING(open)
OPENING(open64)
