/* Makes the allocations of a program fail, each by itself and with all that follow (`.ci/allocations`).
 *
 * Preloaded into the program, it counts allocations. At each STEP-th one, from REST on, it forks the program twice: a child in which this
 * allocation fails goes on in the folder TRIAL, over the files as they stand, and the program itself goes on as if nothing had happened.
 * A line in the file LOG says what each child came to: the number of the allocation, `alone` or `and-on`, the status, and what it left
 * beside what the folder WHOLE has of a run without a failure. Without STEP it counts alone, and writes the number to COUNT_FILE. */
#define _GNU_SOURCE
#include <dirent.h>
#include <errno.h>
#include <fcntl.h>
#include <stdio.h>
#include <stdlib.h>
#include <string.h>
#include <sys/stat.h>
#include <sys/wait.h>
#include <unistd.h>

extern void *__libc_malloc(size_t), *__libc_realloc(void *, size_t), *__libc_calloc(size_t, size_t),
    *__libc_memalign(size_t, size_t);

enum { ALONE, AND_ON, WAYS };
enum { FIRST_FILE = 3, MOST_FILES = 64 };

static long made, refused, step, rest;
static int is_ready, is_own, is_child, way;
static char opened[MOST_FILES];

static int is_open(int file) { return fcntl(file, F_GETFD) != -1; }

static long number_in(const char *name) {
  const char *text = getenv(name);
  return text ? atol(text) : 0;
}

/* Notes which files are open before the program runs, and which allocations are to be tried. */
static void begin(void) {
  for (int file = FIRST_FILE; file < MOST_FILES; ++file) opened[file] = is_open(file);
  step = number_in("STEP"), rest = number_in("REST");
  is_ready = 1;
}

/* Has the place hold what the open file holds, or nothing where there is no file. */
static void copy(int from, int folder, const char *name) {
  char piece[65536];
  ssize_t length;
  if (from < 0) {
    unlinkat(folder, name, 0);
    return;
  }
  int to = openat(folder, name, O_WRONLY | O_CREAT | O_TRUNC, 0644);
  while ((length = read(from, piece, sizeof piece)) > 0)
    if (write(to, piece, length) != length) _exit(99);
  close(to), close(from);
}

/* Makes the child work in the folder `trial`, over the files as they stand, and write to files there. */
static void work_apart(void) {
  int folder = open(getenv("TRIAL"), O_RDONLY | O_DIRECTORY);
  copy(open("cert", O_RDONLY), folder, "cert");
  copy(open("edited", O_RDONLY), folder, "edited");
  copy(open("/proc/self/fd/1", O_RDONLY), folder, "out");
  if (folder < 0 || fchdir(folder)) _exit(99);
  close(folder);
  int out = open("out", O_WRONLY | O_APPEND), err = open("err", O_WRONLY | O_CREAT | O_TRUNC, 0644);
  if (dup2(out, 1) < 0 || dup2(err, 2) < 0) _exit(99);
  close(out), close(err);
  alarm(300);
}

static int is_empty(int folder, const char *name) {
  struct stat found;
  return !fstatat(folder, name, &found, 0) && found.st_size == 0;
}

/* Whether both files hold the same, or neither is there. */
static int is_same(int folder, const char *name, int other, const char *wanted) {
  char one[4096], two[4096];
  int file = openat(folder, name, O_RDONLY), want = openat(other, wanted, O_RDONLY), same = (file < 0) == (want < 0);
  while (same && file >= 0) {
    ssize_t length = read(file, one, sizeof one);
    same = length == read(want, two, sizeof two) && length >= 0 && !memcmp(one, two, length);
    if (length <= 0) break;
  }
  if (file >= 0) close(file);
  if (want >= 0) close(want);
  return same;
}

/* Whether a file that was not kept to its end is left. */
static int has_new(int folder) {
  DIR *found = fdopendir(dup(folder));
  int has = 0;
  rewinddir(found);
  for (struct dirent *entry; !has && (entry = readdir(found));) {
    size_t length = strlen(entry->d_name);
    has = length > 4 && !strcmp(entry->d_name + length - 4, ".new");
  }
  closedir(found);
  return has;
}

/* Whether the program has a file open, or one that is not kept to its end: a child could not go on with it apart. */
static int has_file(void) {
  for (int file = FIRST_FILE; file < MOST_FILES; ++file)
    if (is_open(file) && !opened[file]) return 1;
  int here = open(".", O_RDONLY | O_DIRECTORY), has = has_new(here);
  close(here);
  return has;
}

/* What a child left: nothing, all that a run without a failure leaves, the first of two files, or something else. */
static const char *left(void) {
  int trial = open(getenv("TRIAL"), O_RDONLY | O_DIRECTORY), whole = open(getenv("WHOLE"), O_RDONLY | O_DIRECTORY);
  const char *what = "other";
  if (is_empty(trial, "err") && !has_new(trial)) {
    if (is_empty(trial, "out") && is_same(trial, "cert", whole, "cert.before")) {
      if (is_same(trial, "edited", whole, "edited.before")) what = "nothing";
      else if (is_same(trial, "edited", whole, "edited")) what = "first";
    }
    if (!strcmp(what, "other") && is_same(trial, "out", whole, "out") && is_same(trial, "cert", whole, "cert") &&
        is_same(trial, "edited", whole, "edited"))
      what = "whole";
  }
  close(trial), close(whole);
  return what;
}

static void tell(int way, int status, const char *what) {
  char line[100];
  int log = open(getenv("LOG"), O_WRONLY | O_CREAT | O_APPEND, 0644);
  int code = WIFEXITED(status) ? WEXITSTATUS(status) : 128 + WTERMSIG(status);
  int length = snprintf(line, sizeof line, "%ld %s %d %s\n", made, way == ALONE ? "alone" : "and-on", code, what);
  if (write(log, line, length) != length) _exit(99);
  close(log);
}

/* Runs the program on from here twice, with this allocation refused: what each run came to is told, and this one goes on. */
static int fork_here(void) {
  is_own = 1;
  for (int each = 0; each < WAYS; ++each) {
    if (has_file()) {
      tell(each, 0, "open");
      continue;
    }
    pid_t child = fork();
    if (child == 0) {
      work_apart();
      is_child = 1, way = each, refused = made, is_own = 0;
      return 1;
    }
    int status = 0;
    waitpid(child, &status, 0);
    tell(each, status, left());
  }
  is_own = 0;
  return 0;
}

static int refuse(void) {
  if (is_own) return 0;
  if (!is_ready) is_own = 1, begin(), is_own = 0;
  ++made;
  if (is_child) return made == refused || (way == AND_ON && made > refused);
  return step && made % step == rest && fork_here();
}

void *malloc(size_t size) { return refuse() ? NULL : __libc_malloc(size); }
void *realloc(void *old, size_t size) { return refuse() ? NULL : __libc_realloc(old, size); }
void *calloc(size_t count, size_t size) { return refuse() ? NULL : __libc_calloc(count, size); }
int posix_memalign(void **place, size_t align, size_t size) {
  if (refuse()) return ENOMEM;
  *place = __libc_memalign(align, size);
  return *place ? 0 : ENOMEM;
}

__attribute__((destructor)) static void count(void) {
  if (is_child || !getenv("COUNT_FILE")) return;
  is_own = 1;
  FILE *file = fopen(getenv("COUNT_FILE"), "w");
  if (file) fprintf(file, "%ld\n", made), fclose(file);
}
