/* Refuses one allocation of a program: loaded before the C library (LD_PRELOAD), it stands in for the calls that give out
   memory. REFUSED_CALL is the number, from 1, of the call that finds no memory; the calls before main do not count.
   REFUSED_TOLD is a file descriptor: a byte is written to it when the call is refused. */
#include <errno.h>
#include <stdlib.h>
#include <unistd.h>

extern void *__libc_malloc(size_t size);
extern void *__libc_calloc(size_t count, size_t size);
extern void *__libc_realloc(void *block, size_t size);
extern void *__libc_memalign(size_t alignment, size_t size);

static unsigned long calls, refused_call;
static int told = -1;

__attribute__((constructor)) static void begin(void) {
  const char *call = getenv("REFUSED_CALL"), *descriptor = getenv("REFUSED_TOLD");
  if (!call || !descriptor) abort();
  told = atoi(descriptor);
  calls = 0;
  refused_call = strtoul(call, NULL, 10);
}

static int is_refused(void) {
  if (++calls != refused_call || refused_call == 0) return 0;
  if (write(told, "!", 1) != 1) abort();
  errno = ENOMEM;
  return 1;
}

void *malloc(size_t size) { return is_refused() ? NULL : __libc_malloc(size); }

void *calloc(size_t count, size_t size) { return is_refused() ? NULL : __libc_calloc(count, size); }

void *realloc(void *block, size_t size) { return is_refused() ? NULL : __libc_realloc(block, size); }

void *aligned_alloc(size_t alignment, size_t size) { return is_refused() ? NULL : __libc_memalign(alignment, size); }

int posix_memalign(void **block, size_t alignment, size_t size) {
  if (is_refused()) return ENOMEM;
  void *given = __libc_memalign(alignment, size);
  if (!given) return ENOMEM;
  *block = given;
  return 0;
}
