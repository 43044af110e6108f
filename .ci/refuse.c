/* A library to put before that of C (LD_PRELOAD): it refuses the allocation whose number REFUSE gives, from 1 on, and writes the number of
   all allocations that were asked for to the file REFUSE_TO. */
#define _GNU_SOURCE
#include <errno.h>
#include <fcntl.h>
#include <stdio.h>
#include <stdlib.h>
#include <unistd.h>

extern void *__libc_malloc(size_t), *__libc_calloc(size_t, size_t), *__libc_realloc(void *, size_t), *__libc_memalign(size_t, size_t);

static unsigned long asked, refused;
static int ready;

static int is_refused(void) {
  if (!ready) {
    const char *number = getenv("REFUSE");
    refused = number ? strtoul(number, 0, 10) : 0;
    ready = 1;
  }
  if (++asked != refused) return 0;
  errno = ENOMEM;
  return 1;
}

void *malloc(size_t size) { return is_refused() ? 0 : __libc_malloc(size); }
void *calloc(size_t count, size_t size) { return is_refused() ? 0 : __libc_calloc(count, size); }
void *realloc(void *from, size_t size) { return is_refused() ? 0 : __libc_realloc(from, size); }
void *aligned_alloc(size_t alignment, size_t size) { return is_refused() ? 0 : __libc_memalign(alignment, size); }

int posix_memalign(void **to, size_t alignment, size_t size) {
  if (is_refused()) return ENOMEM;
  *to = __libc_memalign(alignment, size);
  return *to ? 0 : ENOMEM;
}

__attribute__((destructor)) static void tell(void) {
  const char *name = getenv("REFUSE_TO");
  char text[32];
  int to = name ? open(name, O_WRONLY | O_CREAT | O_TRUNC, 0600) : -1;
  if (to < 0) return;
  if (write(to, text, snprintf(text, sizeof text, "%lu\n", asked)) < 0) _exit(70);
  close(to);
}
