/*
 * What the program takes from C, for a browser: memory, the last error, its text, threads (there are none), and products
 * of 128 bits, which the compiler calls by name. Files, streams and words are functions of the page (parts/program.js).
 */

typedef unsigned long size;
typedef unsigned int half;

#define PAGE (1ul << 16)
/* Each block begins with its class, and what is handed out stands behind: on a multiple of 16, as no type asks more. */
#define HEAD 16ul
#define LEAST_CLASS 10

enum { CLASSES = 128, AGAIN = 11 };

/* A class has blocks of one size: two classes for each power of two, 2^k and 2^k * 3 / 2. */
struct block {
  size class;
  struct block *next;
};

extern unsigned char __heap_base;
static size top;
static struct block *freed[CLASSES];

static size size_of(size class) {
  size power = 1ul << (class / 2);
  return class % 2 ? power + power / 2 : power;
}

static size class_of(size bytes) {
  size class = LEAST_CLASS;
  while (size_of(class) < bytes) class++;
  return class;
}

/* Whether the memory reaches up to an address, or could be made to. */
static int reaches(size end) {
  size have = __builtin_wasm_memory_size(0) * PAGE;
  return end <= have || __builtin_wasm_memory_grow(0, (end - have + PAGE - 1) / PAGE) != (size)-1;
}

static struct block *new_block(size class) {
  if (!top) top = ((size)&__heap_base + HEAD - 1) & ~(HEAD - 1);
  struct block *made = (struct block *)top;
  if (!reaches(top + size_of(class))) return 0;
  top += size_of(class);
  made->class = class;
  return made;
}

static struct block *block_at(void *at) { return (struct block *)((unsigned char *)at - HEAD); }

void *malloc(size bytes) {
  if (bytes >= 1ul << 40) return 0;
  size class = class_of(bytes + HEAD);
  struct block *found = freed[class];
  if (found) freed[class] = found->next;
  else found = new_block(class);
  return found ? (unsigned char *)found + HEAD : 0;
}

/* The topmost block goes back to what was never handed out, so a large one that was only asked for costs nothing. */
void free(void *at) {
  if (!at) return;
  struct block *block = block_at(at);
  if ((size)block + size_of(block->class) == top) {
    top = (size)block;
  } else {
    block->next = freed[block->class];
    freed[block->class] = block;
  }
}

void *memcpy(void *to, const void *from, size bytes) { return __builtin_memcpy(to, from, bytes); }
void *memmove(void *to, const void *from, size bytes) { return __builtin_memmove(to, from, bytes); }
void *memset(void *to, int value, size bytes) { return __builtin_memset(to, value, bytes); }

int memcmp(const void *one, const void *other, size bytes) {
  const unsigned char *left = one, *right = other;
  for (size at = 0; at < bytes; at++)
    if (left[at] != right[at]) return left[at] - right[at];
  return 0;
}

/* Whether there is memory, and where. */
struct tried {
  size is_there;
  void *at;
};

/* A value of no bytes takes no memory, and its address is any that is aligned. */
static struct tried tried(void *at) { return (struct tried){at != 0, at ? at : (void *)HEAD}; }

struct tried rattle_alloc(size bytes, size align) { return tried(malloc(bytes ? bytes : align)); }

struct tried rattle_realloc(void *at, size kept, size bytes, size align) {
  if (bytes + HEAD <= size_of(block_at(at)->class)) return tried(at);
  void *moved = malloc(bytes ? bytes : align);
  if (moved) {
    memcpy(moved, at, kept < bytes ? kept : bytes);
    free(at);
  }
  return tried(moved);
}

void rattle_dealloc(void *at) { free(at); }

static int last_error;
void rattle_set_errno(int error) { last_error = error; }
int rattle_errno(void) { return last_error; }

/* What a system says of the errors that the page's files come to (parts/program.js). */
static const char *text_of(int error) {
  switch (error) {
    case 2: return "No such file or directory";
    case 9: return "Bad file descriptor";
    case 11: return "Resource temporarily unavailable";
    case 17: return "File exists";
    default: return "Unknown error";
  }
}

int __xpg_strerror_r(int error, char *to, size room) {
  const char *text = text_of(error);
  size at = 0;
  while (text[at] && at + 1 < room) {
    to[at] = text[at];
    at++;
  }
  if (room) to[at] = 0;
  return 0;
}

/* No thread can be started, so the program tells so where more than one worker is asked for. */
int pthread_create(size *thread, const void *how, void *(*begin)(void *), void *with) { return AGAIN; }
int pthread_join(size thread, void **result) { return 0; }
int pthread_detach(size thread) { return 0; }
size pthread_self(void) { return 1; }
int pthread_attr_init(void *how) { return 0; }
int pthread_attr_destroy(void *how) { return 0; }
int pthread_attr_setguardsize(void *how, size bytes) { return 0; }
int pthread_attr_setstacksize(void *how, size bytes) { return 0; }
int sched_yield(void) { return 0; }
int rattle_set_thread_name(void *name) { return 0; }
size __sysv_signal(int number, size handler) { return 0; }

/* The program's code for x86-64 begins by asking whether the processor has what it takes. Here nothing of that is
   used, so whatever is asked for is there. */
static const half features[8] = {~0u, ~0u, ~0u, ~0u, ~0u, ~0u, ~0u, ~0u};
const void *__x86_get_cpuid_feature_leaf(half leaf) { return features; }

struct wide {
  size low, high;
};

/* The product of two numbers of 128 bits, modulo 2^128. */
struct wide __multi3(size low, size high, size other_low, size other_high) {
  size a = (half)low, b = low >> 32, c = (half)other_low, d = other_low >> 32;
  size middle = (a * c >> 32) + (half)(a * d) + (half)(b * c);
  struct wide product;
  product.low = (half)(a * c) | middle << 32;
  product.high = b * d + (a * d >> 32) + (b * c >> 32) + (middle >> 32) + low * other_high + high * other_low;
  return product;
}
