// Runs a command so many times, and prints the least seconds of a run and the most memory of one, in units of 1,024 bytes.
//
// usage: clock RUNS STATUSES OUT COMMAND..
//
// What the command writes goes to the file OUT, of which the last run stays. STATUSES is a text of the digits with which the
// command may end. The system counts in a program's peak what the program before it in the same process held, so a large
// program that starts another cannot tell the peak of a small one; this program holds little.
#include <fcntl.h>
#include <stdio.h>
#include <stdlib.h>
#include <string.h>
#include <sys/resource.h>
#include <sys/wait.h>
#include <time.h>
#include <unistd.h>

static double now() {
  struct timespec at;
  clock_gettime(CLOCK_MONOTONIC, &at);
  return static_cast<double>(at.tv_sec) + 1e-9 * static_cast<double>(at.tv_nsec);
}

int main(int argc, char **argv) {
  int runs = argc < 5 ? 0 : atoi(argv[1]);
  if (runs < 1) {
    fprintf(stderr, "usage: clock RUNS STATUSES OUT COMMAND..\n");
    return 3;
  }
  double least = 0;
  long peak = 0;
  for (int run = 0; run < runs; run++) {
    int out = open(argv[3], O_WRONLY | O_CREAT | O_TRUNC, 0666);
    if (out < 0) {
      perror(argv[3]);
      return 1;
    }
    double start = now();
    pid_t child = fork();
    if (child == 0) {
      dup2(out, STDOUT_FILENO);
      execv(argv[4], argv + 4);
      perror(argv[4]);
      _exit(127);
    }
    int status = 0;
    struct rusage used;
    if (child < 0 || wait4(child, &status, 0, &used) != child) {
      perror("clock");
      return 1;
    }
    double taken = now() - start;
    close(out);
    if (!WIFEXITED(status) || WEXITSTATUS(status) > 9 || strchr(argv[2], '0' + WEXITSTATUS(status)) == nullptr) {
      fprintf(stderr, "clock: %s ended with %s %d\n", argv[4], WIFEXITED(status) ? "status" : "signal",
              WIFEXITED(status) ? WEXITSTATUS(status) : WTERMSIG(status));
      return 1;
    }
    if (run == 0 || taken < least) least = taken;
    if (used.ru_maxrss > peak) peak = used.ru_maxrss;
  }
  printf("%.6f %ld\n", least, peak);
}
