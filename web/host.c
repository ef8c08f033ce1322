// What hek.wasm has below it: arguments and files by imports of the module `host`, memory, and what clang calls for 128 bits. There is no
// environment, and a thread can't be started. The names are those that the program calls; what is variadic there is variadic here.
typedef unsigned long size_t;
typedef long ssize_t;
typedef unsigned char u8;
typedef unsigned long u64;
typedef __int128 i128;
typedef unsigned __int128 u128;

// ---- the host

#define IMPORT(name) __attribute__((import_module("host"), import_name(name)))
// Each answers an error number below 0 where it fails.
IMPORT("read") long host_read(int fd, void *to, size_t most);
IMPORT("write") long host_write(int fd, const void *from, size_t count);
IMPORT("open") int host_open(const char *path, size_t length, int flags);
IMPORT("close") int host_close(int fd);
IMPORT("is_terminal") int host_is_terminal(int fd);
IMPORT("exit") _Noreturn void host_exit(int status);
IMPORT("arg_count") long host_arg_count(void);
IMPORT("arg") long host_arg(long index, void *to, size_t room);

// The error numbers of what isn't a terminal, of a thread that can't be started, and of a call that the host doesn't have.
enum { ENOTTY = 25, EAGAIN = 11, ENOSYS = 38 };
static int error;

int rattle_errno(void) { return error; }
void rattle_set_errno(int number) { error = number; }

static long answered(long answer) {
  if (answer >= 0) return answer;
  error = (int)-answer;
  return -1;
}

ssize_t read(int fd, void *to, size_t most) { return answered(host_read(fd, to, most)); }
ssize_t write(int fd, const void *from, size_t count) { return answered(host_write(fd, from, count)); }
int close(int fd) { return (int)answered(host_close(fd)); }

int open(const char *path, int flags, ...) {
  size_t length = 0;
  while (path[length]) length++;
  return (int)answered(host_open(path, length, flags));
}

int isatty(int fd) {
  if (host_is_terminal(fd)) return 1;
  error = ENOTTY;
  return 0;
}

// What the host can't say or do of its files: a file is written directly there.
static int absent(void) {
  error = ENOSYS;
  return -1;
}

int statx(int folder, const char *path, int flags, unsigned mask, void *to) { return absent(); }
int rename(const char *from, const char *to) { return absent(); }
int unlink(const char *path) { return absent(); }
int chmod(const char *path, unsigned mode) { return absent(); }
char *realpath(const char *path, char *to) {
  absent();
  return 0;
}

void _exit(int status) { host_exit(status); }
void abort(void) { __builtin_trap(); }
long rattle_arg_count(void) { return host_arg_count(); }
long rattle_arg(long index, void *to, size_t room) { return host_arg(index, to, room); }

// No variable of an environment is set.
long rattle_env(const void *name, void *to, size_t room) { return -1; }
long rattle_env_at(long index, void *to, size_t room) { return -1; }

// ---- threads: there is one

int pthread_create(void *thread, void *attributes, void *start, void *given) { return EAGAIN; }
int pthread_attr_init(void *attributes) { return 0; }
int pthread_attr_setguardsize(void *attributes, size_t size) { return 0; }
int pthread_attr_setstacksize(void *attributes, size_t size) { return 0; }
int pthread_attr_destroy(void *attributes) { return 0; }
u64 pthread_self(void) { return 1; }
int pthread_detach(u64 thread) { return 0; }
int pthread_join(u64 thread, void *result) { return 0; }
int sched_yield(void) { return 0; }
// The one call of the system is the one that waits for another thread, or wakes it.
long syscall(long number, void *at, long what, long value, void *until, ...) { return 0; }
u64 __sysv_signal(int signal, u64 handler) { return 0; }

// ---- memory

// A block has a size of a power of two, the exponent of which stands in the 16 bytes before it; free blocks of a size are a list.
enum { HEAD = 16, LEAST = 5, PAGE = 65536, MORE = 64 };
static const size_t MOST = (size_t)1 << 40;
extern u8 __heap_base;
static void *free_blocks[64];
static size_t top;

static size_t *exponent_of(void *block) { return (size_t *)((u8 *)block - HEAD); }

// Whether the memory reaches to `end`, after it has grown if it has to.
static int reaches(size_t end) {
  size_t have = __builtin_wasm_memory_size(0) * PAGE;
  if (end <= have) return 1;
  size_t pages = (end - have + PAGE - 1) / PAGE;
  return __builtin_wasm_memory_grow(0, pages < MORE ? MORE : pages) != (size_t)-1 || __builtin_wasm_memory_grow(0, pages) != (size_t)-1;
}

void *malloc(size_t size) {
  if (size > MOST) return 0;
  size_t exponent = LEAST;
  while (((size_t)1 << exponent) < size + HEAD) exponent++;
  void *block = free_blocks[exponent];
  if (block) {
    free_blocks[exponent] = *(void **)block;
    return block;
  }
  if (!top) top = ((size_t)&__heap_base + HEAD - 1) & ~(size_t)(HEAD - 1);
  if (!reaches(top + ((size_t)1 << exponent))) return 0;
  block = (u8 *)top + HEAD;
  top += (size_t)1 << exponent;
  *exponent_of(block) = exponent;
  return block;
}

void free(void *block) {
  if (!block) return;
  size_t exponent = *exponent_of(block);
  *(void **)block = free_blocks[exponent];
  free_blocks[exponent] = block;
}

// Whether there is memory, and where; without memory the place is a number that fits the alignment.
struct answer { u64 is_there; void *at; };

struct answer rattle_alloc(size_t size, size_t align) {
  void *block = malloc(size ? size : align);
  return (struct answer){block != 0, block ? block : (void *)align};
}

struct answer rattle_realloc(void *block, size_t old, size_t size, size_t align) {
  size_t room = ((size_t)1 << *exponent_of(block)) - HEAD;
  if (size <= room) return (struct answer){1, block};
  struct answer got = rattle_alloc(size, align);
  if (!got.is_there) return got;
  __builtin_memcpy(got.at, block, room);
  free(block);
  return got;
}

void rattle_dealloc(void *block) { free(block); }

// ---- 128 bits, under the names that clang calls

union wide { u64 part[2]; i128 whole; };

i128 __ashlti3(i128 number, int by) {
  union wide it = {.whole = number};
  if (by >= 64) {
    it.part[1] = it.part[0] << (by - 64);
    it.part[0] = 0;
  } else if (by) {
    it.part[1] = (it.part[1] << by) | (it.part[0] >> (64 - by));
    it.part[0] <<= by;
  }
  return it.whole;
}

i128 __lshrti3(i128 number, int by) {
  union wide it = {.whole = number};
  if (by >= 64) {
    it.part[0] = it.part[1] >> (by - 64);
    it.part[1] = 0;
  } else if (by) {
    it.part[0] = (it.part[0] >> by) | (it.part[1] << (64 - by));
    it.part[1] >>= by;
  }
  return it.whole;
}

// The low parts are multiplied by halves of 32 bits each; of the rest only what fits stays.
i128 __multi3(i128 one, i128 other) {
  union wide a = {.whole = one}, b = {.whole = other}, product;
  u64 a_low = (unsigned)a.part[0], a_high = a.part[0] >> 32, b_low = (unsigned)b.part[0], b_high = b.part[0] >> 32;
  u64 low = a_low * b_low, middle = a_high * b_low + (low >> 32), other_middle = a_low * b_high + (unsigned)middle;
  product.part[0] = (other_middle << 32) | (unsigned)low;
  product.part[1] = a_high * b_high + (middle >> 32) + (other_middle >> 32) + a.part[0] * b.part[1] + a.part[1] * b.part[0];
  return product.whole;
}

// Division bit by bit, from the highest.
u128 __udivti3(u128 number, u128 by) {
  union wide n = {.whole = (i128)number}, d = {.whole = (i128)by}, quotient = {.whole = 0}, rest = {.whole = 0};
  for (int bit = 127; bit >= 0; bit--) {
    u64 carry = rest.part[1] >> 63;
    rest.part[1] = (rest.part[1] << 1) | (rest.part[0] >> 63);
    rest.part[0] = (rest.part[0] << 1) | ((n.part[bit >> 6] >> (bit & 63)) & 1);
    if (!carry && (rest.part[1] < d.part[1] || (rest.part[1] == d.part[1] && rest.part[0] < d.part[0]))) continue;
    u64 low = rest.part[0];
    rest.part[0] -= d.part[0];
    rest.part[1] -= d.part[1] + (low < d.part[0]);
    quotient.part[bit >> 6] |= (u64)1 << (bit & 63);
  }
  return (u128)quotient.whole;
}
