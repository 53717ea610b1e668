/* Refuses one request for memory: the one of number REFUSE_AT, counted over all threads from the beginning
   of main on. At the end the file REFUSE_TELL gets the number of requests. Loaded before the C library. */
#define _GNU_SOURCE
#include <dlfcn.h>
#include <errno.h>
#include <stdatomic.h>
#include <stddef.h>
#include <stdio.h>
#include <stdlib.h>
#include <sys/syscall.h>
#include <unistd.h>

extern void *__libc_malloc(size_t);
extern void *__libc_calloc(size_t, size_t);
extern void *__libc_realloc(void *, size_t);
extern void *__libc_memalign(size_t, size_t);

static atomic_int counts;
static atomic_long asked;
static long refused;

static int refuses(void) {
  if (!counts || atomic_fetch_add(&asked, 1) + 1 != refused) return 0;
  errno = ENOMEM;
  return 1;
}

void *malloc(size_t size) { return refuses() ? NULL : __libc_malloc(size); }
void *calloc(size_t count, size_t size) { return refuses() ? NULL : __libc_calloc(count, size); }
void *realloc(void *old, size_t size) { return refuses() ? NULL : __libc_realloc(old, size); }
void *aligned_alloc(size_t align, size_t size) { return refuses() ? NULL : __libc_memalign(align, size); }
int posix_memalign(void **out, size_t align, size_t size) {
  void *block = refuses() ? NULL : __libc_memalign(align, size);
  if (block == NULL) return ENOMEM;
  *out = block;
  return 0;
}

static void tell(void) {
  counts = 0;
  const char *name = getenv("REFUSE_TELL");
  FILE *file = name ? fopen(name, "w") : NULL;
  if (file != NULL) {
    fprintf(file, "%ld\n", atomic_load(&asked));
    fclose(file);
  }
}

/* The program ends by this call, or by its return from main. */
void _exit(int status) {
  tell();
  syscall(SYS_exit_group, status);
  __builtin_unreachable();
}

/* Runs after the constructors of the libraries, just before main. */
static int (*true_main)(int, char **, char **);
static int counted_main(int argc, char **argv, char **env) {
  const char *at = getenv("REFUSE_AT");
  refused = at ? atol(at) : 0;
  atexit(tell);
  counts = 1;
  return true_main(argc, argv, env);
}

int __libc_start_main(int (*start)(int, char **, char **), int argc, char **argv, void (*init)(void),
                      void (*fini)(void), void (*end)(void), void *stack) {
  int (*next)(int (*)(int, char **, char **), int, char **, void (*)(void), void (*)(void), void (*)(void),
              void *) = dlsym(RTLD_NEXT, "__libc_start_main");
  true_main = start;
  return next(counted_main, argc, argv, init, fini, end, stack);
}
