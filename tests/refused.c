/* Refuses one allocation of a program: the one whose number, from 1, stands in the environment's REFUSE. It is loaded
   before the C library by LD_PRELOAD, and says on standard error that it refused. */
#define _GNU_SOURCE
#include <dlfcn.h>
#include <stdlib.h>
#include <unistd.h>

static int is_refused(void) {
  static long calls;
  static const char said[] = "refused\n";
  const char *wanted = getenv("REFUSE");
  if (wanted == NULL || ++calls != atol(wanted)) return 0;
  return write(STDERR_FILENO, said, sizeof said - 1) > 0;
}

void *malloc(size_t size) {
  static void *(*real)(size_t);
  if (real == NULL) *(void **)&real = dlsym(RTLD_NEXT, "malloc");
  return is_refused() ? NULL : real(size);
}

void *realloc(void *old, size_t size) {
  static void *(*real)(void *, size_t);
  if (real == NULL) *(void **)&real = dlsym(RTLD_NEXT, "realloc");
  return is_refused() ? NULL : real(old, size);
}
