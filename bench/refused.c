/* Stands between a program and libc (LD_PRELOAD, by bench/refused). At each allocation, and at each call that opens,
   reads or writes, the process forks once for each way in which that call can go wrong; it goes wrong in the child,
   which runs to its end, and what that comes to is judged. The parent goes on as if nothing had been, so one run
   tries every call in turn.

   In the environment: REFUSED_WANTED is a file with the report of an undisturbed run, REFUSED_STATUS its status, and
   REFUSED_TOLD a file to which one line goes for each wrong answer, and one line with the numbers at the end. */
#define _GNU_SOURCE
#include <errno.h>
#include <fcntl.h>
#include <signal.h>
#include <stdarg.h>
#include <stdio.h>
#include <stdlib.h>
#include <string.h>
#include <sys/mman.h>
#include <sys/resource.h>
#include <sys/syscall.h>
#include <sys/wait.h>
#include <unistd.h>

extern void *__libc_malloc(size_t), *__libc_calloc(size_t, size_t), *__libc_realloc(void *, size_t);
extern void *__libc_memalign(size_t, size_t);

enum kind { ALLOCATION, OPENING, READING, WRITING, KINDS };
static const char *const kinds[KINDS] = {"allocation", "opening", "reading", "writing"};

/* How a call goes wrong. The last three are no faults: what is interrupted is tried again, what is short goes on. */
enum way { NOT, FAILS, FAILS_ON, TAKES_NONE, INTERRUPTED, SHORT, HURRIED, WAYS };
static const char *const ways[WAYS] = {
    "not",         "fails",
    "fails, and so does each later one", "takes nothing",
    "interrupted", "short",
    "each other one interrupted, the others of one byte"};

static const enum way tried[KINDS][WAYS] = {
    {FAILS, FAILS_ON},
    {FAILS, INTERRUPTED},
    {FAILS, FAILS_ON, INTERRUPTED, SHORT, HURRIED},
    {FAILS, FAILS_ON, TAKES_NONE, INTERRUPTED, SHORT, HURRIED}};

/* How many files may be open. */
enum { FILES = 16 };

static int is_armed, is_child;
static enum kind child_kind;
static enum way child_way;
static long turns;

static long count_of[KINDS];
/* Of each kind: how many tries there were, how many gave its status, and how many the right answer. */
static long tries[KINDS], told_so[KINDS], right[KINDS], wrong;
static size_t written;
static char *wanted;
static size_t wanted_size;
static int wanted_status, told = -1;

static void say(const char *format, ...) {
  char line[400];
  va_list list;
  va_start(list, format);
  int size = vsnprintf(line, sizeof line, format, list);
  va_end(list);
  syscall(SYS_write, told, line, size < (int)sizeof line ? size : (int)sizeof line - 1);
}

__attribute__((constructor)) static void begin(void) {
  const char *name = getenv("REFUSED_WANTED"), *status = getenv("REFUSED_STATUS"), *to = getenv("REFUSED_TOLD");
  if (!name || !status || !to) return;
  int file = syscall(SYS_openat, AT_FDCWD, name, O_RDONLY | O_CLOEXEC, 0);
  told = syscall(SYS_openat, AT_FDCWD, to, O_WRONLY | O_APPEND | O_CREAT | O_CLOEXEC, 0644);
  if (file < 0 || told < 0) return;
  wanted_size = lseek(file, 0, SEEK_END);
  wanted = wanted_size ? mmap(NULL, wanted_size, PROT_READ, MAP_PRIVATE, file, 0) : "";
  close(file);
  wanted_status = atoi(status);
  is_armed = wanted != MAP_FAILED;
}

__attribute__((destructor)) static void end(void) {
  if (!is_armed || is_child) return;
  is_armed = 0;
  say("tried");
  for (int kind = 0; kind < KINDS; kind++) say(" %ld %ld %ld", tries[kind], told_so[kind], right[kind]);
  say(" wrong %ld\n", wrong);
}

/* What a child ended with, whose output stands in a file. */
static void judge(enum kind kind, enum way way, int ended, int file) {
  static const int status_of[KINDS] = {8, 3, 3, 7};
  int is_fault = way == FAILS || way == FAILS_ON || way == TAKES_NONE;
  size_t size = lseek(file, 0, SEEK_END);
  char *bytes = size ? mmap(NULL, size, PROT_READ, MAP_PRIVATE, file, 0) : "";
  int status = WIFEXITED(ended) ? WEXITSTATUS(ended) : 256 + WTERMSIG(ended);
  int is_first_part = bytes != MAP_FAILED && written + size <= wanted_size && !memcmp(wanted + written, bytes, size);
  int is_right = status == wanted_status && is_first_part && written + size == wanted_size;
  int is_told = is_fault && status == status_of[kind];
  if (kind == ALLOCATION) is_told = is_told && written + size == 0;
  if (kind == OPENING || kind == READING)
    is_told = is_told && written == 0 && size == 11 && !memcmp(bytes, "read fault\n", 11);
  if (kind == WRITING) is_told = is_told && is_first_part && (way != FAILS_ON || size == 0);
  tries[kind]++;
  if (is_told) told_so[kind]++;
  /* an allocation that can do without, and a call that is made again */
  else if (is_right && (kind == ALLOCATION || !is_fault)) right[kind]++;
  else {
    wrong++;
    say("wrong: %s %ld %s: status %d%s, %zu bytes behind %zu\n", kinds[kind], count_of[kind], ways[way], status & 255,
        status > 255 ? " (a signal)" : "", size, written);
  }
  if (size && bytes != MAP_FAILED) munmap(bytes, size);
}

/* In each child the way in which this call goes wrong; at last in the parent that it does not. */
static enum way now(enum kind kind) {
  if (is_child) {
    if (kind != child_kind) return NOT;
    if (child_way == FAILS_ON) return FAILS;
    if (child_way == HURRIED) return turns++ % 2 ? SHORT : INTERRUPTED;
    return NOT;
  }
  if (!is_armed) return NOT;
  count_of[kind]++;
  /* a child moves on in the files that it shares with its parent */
  off_t at[FILES];
  for (int file = 0; file < FILES; file++) at[file] = lseek(file, 0, SEEK_CUR);
  for (const enum way *way = tried[kind]; *way != NOT; way++) {
    int file = memfd_create("report", MFD_CLOEXEC), ended = 0;
    pid_t child = file < 0 ? -1 : fork();
    if (child < 0) {
      wrong++;
      say("wrong: %s %ld could not be tried\n", kinds[kind], count_of[kind]);
      if (file >= 0) close(file);
      break;
    }
    if (child == 0) {
      struct rlimit none = {0, 0}, seconds = {30, 30};
      is_child = 1, child_kind = kind, child_way = *way;
      setrlimit(RLIMIT_CORE, &none);
      setrlimit(RLIMIT_CPU, &seconds);
      dup2(file, 1);
      if (*way == FAILS_ON) return FAILS;
      if (*way == HURRIED) return turns++, INTERRUPTED;
      return *way;
    }
    while (waitpid(child, &ended, 0) < 0 && errno == EINTR) continue;
    judge(kind, *way, ended, file);
    close(file);
    for (int other = 0; other < FILES; other++)
      if (at[other] >= 0) lseek(other, at[other], SEEK_SET);
  }
  return NOT;
}

static int is_refused(void) {
  if (now(ALLOCATION) == NOT) return 0;
  errno = ENOMEM;
  return 1;
}

void *malloc(size_t size) { return is_refused() ? NULL : __libc_malloc(size); }
void *calloc(size_t count, size_t size) { return is_refused() ? NULL : __libc_calloc(count, size); }
void *realloc(void *old, size_t size) { return is_refused() ? NULL : __libc_realloc(old, size); }
void *memalign(size_t to, size_t size) { return is_refused() ? NULL : __libc_memalign(to, size); }
void *aligned_alloc(size_t to, size_t size) { return is_refused() ? NULL : __libc_memalign(to, size); }

int posix_memalign(void **made, size_t to, size_t size) {
  *made = is_refused() ? NULL : __libc_memalign(to, size);
  return *made ? 0 : ENOMEM;
}

/* What goes wrong with a call before it is made: 0 for nothing, else its answer. How many bytes it may take. */
static int is_spoiled(enum kind kind, size_t *size, ssize_t *answer) {
  enum way way = now(kind);
  *answer = way == TAKES_NONE ? 0 : -1;
  errno = way == INTERRUPTED ? EINTR : kind == OPENING ? EACCES : EIO;
  if (way == SHORT && *size > 1) *size = 1;
  return way == FAILS || way == TAKES_NONE || way == INTERRUPTED;
}

static int opened(int folder, const char *name, int flags, int mode) {
  size_t size = 0;
  ssize_t answer;
  return is_spoiled(OPENING, &size, &answer) ? -1 : (int)syscall(SYS_openat, folder, name, flags, mode);
}

static int mode_in(int flags, va_list list) { return flags & (O_CREAT | __O_TMPFILE) ? va_arg(list, int) : 0; }

#define OPENS(name, parameters, folder)                     \
  int name parameters {                                     \
    va_list list;                                           \
    va_start(list, flags);                                  \
    int mode = mode_in(flags, list);                        \
    va_end(list);                                           \
    return opened(folder, path, flags, mode);               \
  }
OPENS(open, (const char *path, int flags, ...), AT_FDCWD)
OPENS(open64, (const char *path, int flags, ...), AT_FDCWD)
OPENS(openat, (int folder, const char *path, int flags, ...), folder)
OPENS(openat64, (int folder, const char *path, int flags, ...), folder)

ssize_t read(int file, void *bytes, size_t size) {
  ssize_t answer;
  return is_spoiled(READING, &size, &answer) ? answer : syscall(SYS_read, file, bytes, size);
}

ssize_t write(int file, const void *bytes, size_t size) {
  ssize_t answer;
  if (is_spoiled(WRITING, &size, &answer)) return answer;
  answer = syscall(SYS_write, file, bytes, size);
  if (!is_child && file == 1 && answer > 0) written += answer;
  return answer;
}
