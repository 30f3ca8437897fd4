/* Refuses a program one request for memory: the one whose number stands in REFUSE, counted from 1. Where that is 0, it refuses
   none, and says in the end on standard error how many there were. */
#include <errno.h>
#include <stdatomic.h>
#include <stdbool.h>
#include <stddef.h>
#include <stdio.h>
#include <stdlib.h>
#include <string.h>

extern void *__libc_malloc(size_t size);
extern void *__libc_calloc(size_t count, size_t size);
extern void *__libc_realloc(void *old, size_t size);
extern void *__libc_memalign(size_t alignment, size_t size);

static atomic_long made;

static bool is_refused(void) {
  const char *number = getenv("REFUSE");
  if (number == NULL || atomic_fetch_add(&made, 1) + 1 != atol(number)) return false;
  errno = ENOMEM;
  return true;
}

void *malloc(size_t size) { return is_refused() ? NULL : __libc_malloc(size); }

void *calloc(size_t count, size_t size) { return is_refused() ? NULL : __libc_calloc(count, size); }

void *realloc(void *old, size_t size) { return is_refused() ? NULL : __libc_realloc(old, size); }

void *memalign(size_t alignment, size_t size) { return is_refused() ? NULL : __libc_memalign(alignment, size); }

void *aligned_alloc(size_t alignment, size_t size) { return memalign(alignment, size); }

int posix_memalign(void **to, size_t alignment, size_t size) {
  void *memory = memalign(alignment, size);
  if (memory == NULL) return ENOMEM;
  *to = memory;
  return 0;
}

__attribute__((destructor)) static void tell(void) {
  const char *number = getenv("REFUSE");
  if (number != NULL && strcmp(number, "0") == 0) dprintf(2, "%ld\n", atomic_load(&made));
}
