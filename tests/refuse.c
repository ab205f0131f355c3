/* Loaded before the C library into the program that is tested (tests/refused.py): it counts the program's requests for memory, and refuses
 * one of them, or that one and all behind it.
 *
 * REFUSALS in the environment names a file of which the test and the program share the first page. A command is counted from its start, or once it
 * has read the clock. A server that `forks` goes on in a child of its own once it hears of a connection, and is counted there until that connection is
 * closed; once the child has ended, it is where it was before, and hears of the next one.
 */
#define _GNU_SOURCE
#include <dlfcn.h>
#include <errno.h>
#include <fcntl.h>
#include <signal.h>
#include <stdint.h>
#include <stdlib.h>
#include <sys/epoll.h>
#include <sys/mman.h>
#include <sys/prctl.h>
#include <sys/socket.h>
#include <sys/syscall.h>
#include <sys/wait.h>
#include <time.h>
#include <unistd.h>

enum { PAGE_BYTES = 4096, SECONDS = 60 };

/* As `Page` of refused.py has it. */
struct page {
  int64_t refused; /* the number of the request that is refused; 0: none is */
  int64_t is_rest; /* whether all behind it are refused too */
  int64_t counts;  /* whether requests count */
  int64_t clocked; /* whether they do once the clock was read */
  int64_t asked;   /* so many were made while they counted */
  int64_t forks;   /* whether a server goes on in a child */
  int64_t waits;   /* whether the server waits for connections */
  int64_t child;   /* the last child's id */
  int64_t ended;   /* so many children have ended */
  int64_t status;  /* how the last one ended */
};

extern void *__libc_malloc(size_t);
extern void *__libc_calloc(size_t, size_t);
extern void *__libc_realloc(void *, size_t);

static volatile struct page *page;
static int is_child;
static int connection = -1; /* the first one that a child accepted */

__attribute__((constructor)) static void begin(void) {
  const char *shared = getenv("REFUSALS");
  int file = shared ? open(shared, O_RDWR | O_CLOEXEC) : -1;
  void *found = file < 0 ? MAP_FAILED : mmap(0, PAGE_BYTES, PROT_READ | PROT_WRITE, MAP_SHARED, file, 0);
  if (found != MAP_FAILED) page = found;
  if (file >= 0) close(file);
}

static int refuses(void) {
  if (!page || !page->counts) return 0;
  int64_t number = ++page->asked;
  if (!page->refused || (page->is_rest ? number < page->refused : number != page->refused)) return 0;
  errno = ENOMEM;
  return 1;
}

void *malloc(size_t size) { return refuses() ? 0 : __libc_malloc(size); }

void *calloc(size_t count, size_t size) { return refuses() ? 0 : __libc_calloc(count, size); }

void *realloc(void *block, size_t size) { return refuses() ? 0 : __libc_realloc(block, size); }

int clock_gettime(clockid_t clock, struct timespec *moment) {
  static __typeof__(clock_gettime) *next;
  if (!next) next = (__typeof__(next))dlsym(RTLD_NEXT, "clock_gettime");
  if (page && page->clocked && clock == CLOCK_REALTIME) page->counts = 1;
  return next(clock, moment);
}

/* Goes on in a child. Returns in it, and in the server whether there was one, once it has ended. */
static int has_forked(void) {
  int status;
  pid_t child = fork();
  if (child < 0) _exit(3);
  if (child == 0) {
    prctl(PR_SET_PDEATHSIG, SIGKILL);
    alarm(SECONDS);
    is_child = 1;
    page->child = getpid();
    page->counts = 1;
    return 0;
  }
  if (waitpid(child, &status, 0) < 0) _exit(3);
  page->counts = 0;
  page->status = status;
  page->ended++;
  return 1;
}

int epoll_wait(int set, struct epoll_event *events, int most, int timeout) {
  int count;
  if (!page || is_child) return syscall(SYS_epoll_wait, set, events, most, timeout);
  page->waits = 1;
  do count = syscall(SYS_epoll_wait, set, events, most, timeout);
  while (count > 0 && page->forks && has_forked());
  if (!is_child) page->waits = 0;
  return count;
}

int accept4(int listener, struct sockaddr *address, socklen_t *size, int flags) {
  int accepted = syscall(SYS_accept4, listener, address, size, flags);
  if (accepted >= 0 && is_child && connection < 0) connection = accepted;
  return accepted;
}

int close(int file) {
  if (file >= 0 && file == connection) {
    page->counts = 0;
    connection = -1;
  }
  return syscall(SYS_close, file);
}
