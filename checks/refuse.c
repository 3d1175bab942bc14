/* Refuses one allocation of a program, the one whose number stands in REFUSE, counted from 1, and lets all others pass. Where it came to
   that one, it leaves the file that is named by REFUSED. At the end of the program it writes how many there were to the file that is named
   by COUNTED. For checks/memory.py, by LD_PRELOAD. */
#include <errno.h>
#include <fcntl.h>
#include <stdio.h>
#include <stdlib.h>
#include <unistd.h>

extern void *__libc_malloc(size_t size);
extern void *__libc_calloc(size_t count, size_t size);
extern void *__libc_realloc(void *at, size_t size);
extern void *__libc_memalign(size_t align, size_t size);

static long seen, wanted = -1;

static int refused(void) {
  if (wanted < 0) {
    const char *number = getenv("REFUSE");
    wanted = number ? atol(number) : 0;
  }
  if (++seen != wanted) return 0;
  const char *name = getenv("REFUSED");
  int file = name ? open(name, O_CREAT | O_WRONLY, 0600) : -1;
  if (file >= 0) close(file);
  errno = ENOMEM;
  return 1;
}

void *malloc(size_t size) { return refused() ? NULL : __libc_malloc(size); }
void *calloc(size_t count, size_t size) { return refused() ? NULL : __libc_calloc(count, size); }
void *realloc(void *at, size_t size) { return refused() ? NULL : __libc_realloc(at, size); }
void *memalign(size_t align, size_t size) { return refused() ? NULL : __libc_memalign(align, size); }
void *aligned_alloc(size_t align, size_t size) { return refused() ? NULL : __libc_memalign(align, size); }

int posix_memalign(void **into, size_t align, size_t size) {
  void *block = refused() ? NULL : __libc_memalign(align, size);
  if (!block) return ENOMEM;
  *into = block;
  return 0;
}

__attribute__((destructor)) static void tell(void) {
  const char *name = getenv("COUNTED");
  long count = seen;
  char digits[24];
  if (!name) return;
  int file = open(name, O_CREAT | O_TRUNC | O_WRONLY, 0600);
  if (file < 0) return;
  int length = snprintf(digits, sizeof digits, "%ld\n", count);
  if (write(file, digits, length) != length) unlink(name);
  close(file);
}
