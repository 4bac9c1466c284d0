/* Refuses the allocation number FAIL_AT, or each one from number FAIL_FROM on, and tells in FAIL_LOG how many there
   were and whether one was refused. A program that was built without proofs has an allocator of its own. Its `malloc`
   and `realloc` are each one jump, which is turned to the functions of this file before the program's `main` begins. */
#define _GNU_SOURCE
#include <dlfcn.h>
#include <errno.h>
#include <fcntl.h>
#include <stdint.h>
#include <stdio.h>
#include <stdlib.h>
#include <string.h>
#include <sys/mman.h>
#include <unistd.h>

extern void *__libc_malloc(size_t);
extern void *__libc_calloc(size_t, size_t);
extern void *__libc_realloc(void *, size_t);
extern void *__libc_memalign(size_t, size_t);

static void *(*inner_malloc)(size_t) = __libc_malloc;
static void *(*inner_realloc)(void *, size_t) = __libc_realloc;

static long count, fail_at, fail_from, was_refused;

static long number(const char *name) {
  const char *text = getenv(name);
  return text ? atol(text) : 0;
}

static int is_refused(void) {
  if (count == 0) {
    fail_at = number("FAIL_AT");
    fail_from = number("FAIL_FROM");
  }
  count++;
  if (count != fail_at && (fail_from == 0 || count < fail_from)) return 0;
  was_refused = 1;
  errno = ENOMEM;
  return 1;
}

static void *refusing_malloc(size_t size) { return is_refused() ? NULL : inner_malloc(size); }
static void *refusing_realloc(void *block, size_t size) { return is_refused() ? NULL : inner_realloc(block, size); }

void *malloc(size_t size) { return refusing_malloc(size); }
void *calloc(size_t n, size_t size) { return is_refused() ? NULL : __libc_calloc(n, size); }
void *realloc(void *block, size_t size) { return refusing_realloc(block, size); }
void *aligned_alloc(size_t align, size_t size) { return is_refused() ? NULL : __libc_memalign(align, size); }

int posix_memalign(void **block, size_t align, size_t size) {
  if (is_refused()) return ENOMEM;
  *block = __libc_memalign(align, size);
  return *block ? 0 : ENOMEM;
}

static void give_up(const char *why) {
  fprintf(stderr, "refuse.c: %s\n", why);
  _exit(99);
}

/* A page below the program that its jumps can reach. */
static uint8_t *page_near(const uint8_t *code) {
  uintptr_t at = (uintptr_t)code & ~(uintptr_t)4095;
  for (int tries = 0; tries < 1024; tries++) {
    at -= 1 << 20;
    void *page = mmap((void *)at, 4096, PROT_READ | PROT_WRITE | PROT_EXEC, MAP_PRIVATE | MAP_ANONYMOUS | MAP_FIXED_NOREPLACE, -1, 0);
    if (page == (void *)at) return page;
    if (page != MAP_FAILED) munmap(page, 4096);
  }
  give_up("there is no page near the program");
  return NULL;
}

/* Turns the one jump that a function of the program is to another function, and gives where it went. */
static void *turned(uint8_t *code, void *to) {
  static const uint8_t far_jump[6] = {0xff, 0x25};
  int32_t rest;
  if (code[0] != 0xe9) give_up("the program's allocator does not begin with a jump");
  memcpy(&rest, code + 1, 4);
  uint8_t *page = page_near(code), *inner = code + 5 + rest, *first = (uint8_t *)((uintptr_t)code & ~(uintptr_t)4095);
  memcpy(page, far_jump, 6);
  memcpy(page + 6, &to, 8);
  if (mprotect(first, 8192, PROT_READ | PROT_WRITE | PROT_EXEC)) give_up("the program's code cannot be changed");
  rest = (int32_t)(page - (code + 5));
  memcpy(code + 1, &rest, 4);
  mprotect(first, 8192, PROT_READ | PROT_EXEC);
  return inner;
}

__attribute__((constructor)) static void turn(void) {
  uint8_t *first = dlsym(RTLD_DEFAULT, "malloc"), *other = dlsym(RTLD_DEFAULT, "realloc");
  Dl_info own, found;
  if (!dladdr(&inner_malloc, &own) || !dladdr(first, &found) || own.dli_fbase == found.dli_fbase) return;
  inner_malloc = turned(first, refusing_malloc);
  inner_realloc = turned(other, refusing_realloc);
}

__attribute__((destructor)) static void tell(void) {
  const char *log = getenv("FAIL_LOG");
  char line[64];
  int file = log ? open(log, O_WRONLY | O_CREAT | O_TRUNC, 0644) : -1;
  if (file < 0) return;
  if (write(file, line, snprintf(line, sizeof line, "%ld %ld\n", count, was_refused)) < 0) return;
  close(file);
}
