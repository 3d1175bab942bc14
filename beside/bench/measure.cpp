// measure SECONDS PROGRAM WORDS..: runs a program, and ends it after so many seconds of processor time. The last line
// on standard error is `STATUS MICROSECONDS KILOBYTES`: its status, or 128 and the signal that ended it, its processor
// time and the most memory that it had. (A program of its own, as a child's memory counts what its starter had.)
#include <sys/resource.h>
#include <sys/wait.h>
#include <unistd.h>
#include <cstdio>
#include <cstdlib>

static long microseconds(timeval time) { return time.tv_sec * 1000000L + time.tv_usec; }

int main(int count, char** words) {
  if (count < 3) return 2;
  rlim_t seconds = strtoul(words[1], nullptr, 10);
  rlimit limit{seconds, seconds + 1};
  pid_t child = fork();
  if (child < 0) return 3;
  if (child == 0) {
    setrlimit(RLIMIT_CPU, &limit);
    execvp(words[2], words + 2);
    _exit(127);
  }
  int status;
  rusage used;
  if (wait4(child, &status, 0, &used) < 0) return 3;
  fprintf(stderr, "\n%d %ld %ld\n", WIFEXITED(status) ? WEXITSTATUS(status) : 128 + WTERMSIG(status),
          microseconds(used.ru_utime) + microseconds(used.ru_stime), used.ru_maxrss);
  return 0;
}
