/* one_run INPUT COMMAND WORD..: runs a command once on an input, its output thrown away, and prints its
   processor time in seconds, its greatest resident set in KiB and its status. A small program starts it,
   since a child's resident set counts what its parent had. */
#define _GNU_SOURCE
#include <fcntl.h>
#include <stdio.h>
#include <sys/resource.h>
#include <sys/wait.h>
#include <unistd.h>

static double seconds(struct timeval t) { return t.tv_sec + t.tv_usec * 1e-6; }

int main(int count, char **words) {
  if (count < 3) return 2;
  pid_t child = fork();
  if (child == 0) {
    dup2(open(words[1], O_RDONLY), 0);
    dup2(open("/dev/null", O_WRONLY), 1);
    execvp(words[2], words + 2);
    _exit(126);
  }
  int status;
  struct rusage used;
  if (child < 0 || wait4(child, &status, 0, &used) < 0) return 1;
  printf("%.6f %ld %d\n", seconds(used.ru_utime) + seconds(used.ru_stime), used.ru_maxrss,
         WIFEXITED(status) ? WEXITSTATUS(status) : 128 + WTERMSIG(status));
  return 0;
}
