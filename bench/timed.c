// `timed FILE TURNS PROGRAM [WORDS]`: runs a program TURNS times, FILE on standard input and /dev/null on standard output, and prints
// the processor's nanoseconds, the system's among them, in the best turn.
#include <fcntl.h>
#include <stdint.h>
#include <stdio.h>
#include <stdlib.h>
#include <sys/resource.h>
#include <sys/wait.h>
#include <unistd.h>

static void die(const char *what) {
  fprintf(stderr, "timed: %s\n", what);
  exit(1);
}

static void become(const char *path, char **command) {
  int in = open(path, O_RDONLY), out = open("/dev/null", O_WRONLY);
  if (in < 0 || out < 0) die("cannot open a file");
  dup2(in, STDIN_FILENO);
  dup2(out, STDOUT_FILENO);
  execv(command[0], command);
  die("cannot run the program");
}

static uint64_t nanoseconds(struct timeval t) { return ((uint64_t)t.tv_sec * 1000000 + t.tv_usec) * 1000; }

static uint64_t turn(const char *path, char **command) {
  struct rusage used;
  int status;
  pid_t child = fork();
  if (child < 0) die("cannot fork");
  if (child == 0) become(path, command);
  if (wait4(child, &status, 0, &used) != child || status != 0) die("the program failed");
  return nanoseconds(used.ru_utime) + nanoseconds(used.ru_stime);
}

int main(int argc, char **argv) {
  if (argc < 4) die("usage: timed FILE TURNS PROGRAM [WORDS]");
  uint64_t best = UINT64_MAX;
  for (int i = 0; i < atoi(argv[2]); i++) {
    uint64_t took = turn(argv[1], argv + 3);
    if (took < best) best = took;
  }
  printf("%llu\n", (unsigned long long)best);
  return 0;
}
