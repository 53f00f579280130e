// Refuses one growth of a program: the one whose number, from 1 on, stands in REFUSED. Where COUNTED names a file, the
// number of growths is written there at the end. To be loaded by LD_PRELOAD.
#define _GNU_SOURCE
#include <dlfcn.h>
#include <errno.h>
#include <stdio.h>
#include <stdlib.h>

static long calls, refused = -1;

static int is_refused(void) {
  if (refused < 0) {
    const char *text = getenv("REFUSED");
    refused = text ? atol(text) : 0;
  }
  calls++;
  if (calls != refused) return 0;
  errno = ENOMEM;
  return 1;
}

void *malloc(size_t size) {
  static void *(*next)(size_t);
  if (!next) next = dlsym(RTLD_NEXT, "malloc");
  return is_refused() ? NULL : next(size);
}

void *realloc(void *block, size_t size) {
  static void *(*next)(void *, size_t);
  if (!next) next = dlsym(RTLD_NEXT, "realloc");
  return is_refused() ? NULL : next(block, size);
}

__attribute__((destructor)) static void count(void) {
  const char *name = getenv("COUNTED");
  FILE *file = name ? fopen(name, "w") : NULL;
  if (!file) return;
  fprintf(file, "%ld\n", calls);
  fclose(file);
}
