/* Loaded before the C library into the program that is tested (tests/world.py): it sets the clock and the seeds, has calls of the store
 * fail, and notes each write, cut and sync, so that what wasn't synced can be lost afterwards.
 *
 * PAGE in the environment names a file of which the test and the program share the first page, NOTES one to which the notes are appended.
 * The store's files are all regular files that the program reads and writes by place; the log is the one whose name ends by `-wal`.
 */
#define _GNU_SOURCE
#include <errno.h>
#include <fcntl.h>
#include <signal.h>
#include <stdint.h>
#include <stdio.h>
#include <stdlib.h>
#include <string.h>
#include <sys/mman.h>
#include <sys/prctl.h>
#include <sys/stat.h>
#include <sys/syscall.h>
#include <time.h>
#include <unistd.h>

enum { REAL, SET, FAILS }; /* what a clock or a source of seeds is */
enum { DATABASE = 1, LOG = 2 };
enum { PAGE_BYTES = 4096, PATH_BYTES = 1024 };

/* As `Page` of world.py has it. */
struct page {
  int64_t clock;
  int64_t seconds;
  int64_t seeds;
  unsigned char seed[16];
  int64_t fails_from; /* 0, or the number of the call from which all fail */
  int64_t failing;    /* of which files: DATABASE, LOG or both */
  int64_t reads;      /* whether reads count */
  int64_t torn;       /* whether the first one that fails writes its first half, if it is a write */
  int64_t dies;       /* whether the program is killed there */
  int64_t calls[2];   /* so many calls were made of the database, and of the log */
  int64_t without_sync; /* whether a sync does nothing, and is answered as ever */
};

/* What is noted: these numbers, then the bytes that were there, and those of a write. */
struct note {
  int64_t kind; /* 'W' a write, 'T' a cut to `length` bytes, 'S' a sync */
  int64_t inode;
  int64_t offset;
  int64_t length;
  int64_t old_length;
  int64_t size; /* of the file, before it */
};

static volatile struct page *page;
static int notes = -1;

__attribute__((constructor)) static void begin(void) {
  const char *shared = getenv("PAGE");
  const char *noted = getenv("NOTES");
  int file = shared ? open(shared, O_RDWR | O_CLOEXEC) : -1;
  if (file >= 0) {
    void *found = mmap(0, PAGE_BYTES, PROT_READ | PROT_WRITE, MAP_SHARED, file, 0);
    if (found != MAP_FAILED) page = found;
    close(file);
  }
  if (noted) notes = open(noted, O_WRONLY | O_CREAT | O_APPEND | O_CLOEXEC, 0600);
  prctl(PR_SET_PDEATHSIG, SIGKILL); /* it doesn't outlive the test */
}

/* Which of the store's files it is; 0 if none. */
static int64_t file_of(int fd) {
  struct stat found;
  char link[64], path[PATH_BYTES];
  ssize_t size;
  if (!page || fstat(fd, &found) || !S_ISREG(found.st_mode)) return 0;
  snprintf(link, sizeof link, "/proc/self/fd/%d", fd);
  size = readlink(link, path, sizeof path);
  return size >= 4 && !memcmp(path + size - 4, "-wal", 4) ? LOG : DATABASE;
}

/* Counts a call. Does it fail, and is it the first one that does (1), or one behind it (2)? */
static int fails(int fd, int is_read) {
  int64_t file = file_of(fd), number = 0;
  if (!file || (is_read && !page->reads)) return 0;
  page->calls[file - 1]++;
  if (!page->fails_from || !(page->failing & file)) return 0;
  if (page->failing & DATABASE) number += page->calls[DATABASE - 1];
  if (page->failing & LOG) number += page->calls[LOG - 1];
  return number < page->fails_from ? 0 : number == page->fails_from ? 1 : 2;
}

/* What a call answers that fails, if the program goes on. */
static int failed(void) {
  if (page->dies) kill(getpid(), SIGKILL);
  errno = EIO;
  return -1;
}

static void note(char kind, int fd, int64_t offset, int64_t length, const void *bytes) {
  struct stat found;
  struct note head = {kind, 0, offset, length, 0, 0};
  size_t new_length = kind == 'W' ? length : 0;
  char *room;
  if (notes < 0 || !file_of(fd) || fstat(fd, &found)) return;
  head.inode = found.st_ino;
  head.size = found.st_size;
  if (kind == 'W') head.old_length = length;
  if (kind == 'T' && found.st_size > length) head.old_length = found.st_size - length;
  room = malloc(sizeof head + head.old_length + new_length);
  if (!room) abort();
  if (head.old_length) head.old_length = syscall(SYS_pread64, fd, room + sizeof head, head.old_length, kind == 'T' ? length : offset);
  if (head.old_length < 0) abort();
  memcpy(room, &head, sizeof head);
  if (new_length) memcpy(room + sizeof head + head.old_length, bytes, new_length);
  if (write(notes, room, sizeof head + head.old_length + new_length) < 0) abort();
  free(room);
}

int clock_gettime(clockid_t clock, struct timespec *moment) {
  if (!page || clock != CLOCK_REALTIME || page->clock == REAL) return syscall(SYS_clock_gettime, clock, moment);
  if (page->clock == FAILS) {
    errno = EINVAL;
    return -1;
  }
  moment->tv_sec = page->seconds;
  moment->tv_nsec = 0;
  return 0;
}

int getentropy(void *room, size_t size) {
  if (!page || page->seeds == REAL) return syscall(SYS_getrandom, room, size, 0) == (ssize_t)size ? 0 : -1;
  if (page->seeds == FAILS) {
    errno = EIO;
    return -1;
  }
  for (size_t at = 0; at < size; at++) ((unsigned char *)room)[at] = page->seed[at % sizeof page->seed];
  return 0;
}

ssize_t pwrite64(int fd, const void *bytes, size_t size, off64_t offset) {
  int failure = fails(fd, 0);
  if (failure == 1 && page->torn) {
    note('W', fd, offset, size / 2, bytes);
    if (syscall(SYS_pwrite64, fd, bytes, size / 2, offset) < 0) abort();
  }
  if (failure) return failed();
  note('W', fd, offset, size, bytes);
  return syscall(SYS_pwrite64, fd, bytes, size, offset);
}

ssize_t pread64(int fd, void *room, size_t size, off64_t offset) {
  return fails(fd, 1) ? failed() : syscall(SYS_pread64, fd, room, size, offset);
}

int ftruncate64(int fd, off64_t size) {
  if (fails(fd, 0)) return failed();
  note('T', fd, 0, size, 0);
  return syscall(SYS_ftruncate, fd, size);
}

static int synced(int fd, long call) {
  int answer;
  if (fails(fd, 0)) return failed();
  if (page && page->without_sync) return 0;
  answer = syscall(call, fd);
  if (!answer) note('S', fd, 0, 0, 0);
  return answer;
}

int fdatasync(int fd) { return synced(fd, SYS_fdatasync); }
int fsync(int fd) { return synced(fd, SYS_fsync); }

/* The same, as a program names them that asks for no places of 64 bits. */
ssize_t pwrite(int fd, const void *bytes, size_t size, off_t offset) { return pwrite64(fd, bytes, size, offset); }
ssize_t pread(int fd, void *room, size_t size, off_t offset) { return pread64(fd, room, size, offset); }
int ftruncate(int fd, off_t size) { return ftruncate64(fd, size); }
