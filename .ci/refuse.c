// To be preloaded into a program: it refuses memory, and fails input and output, as the environment says. Only what the
// program itself calls is counted, from 1 on, and not what the C library or the loader calls.
//
//   REFUSE_ALLOC=N  the Nth allocation is refused         REFUSE_READ=N   the Nth read of input or a file fails
//   REFUSE_WRITE=N  the Nth write of standard output fails REFUSE_TAKE=N  the Nth write of standard output takes no byte
//   ONE_BYTE=1      each read and write moves one byte     REFUSE_TELL=FD  a byte goes to this file where one was refused
//   READ_MOST=N     each read of standard input takes at most N bytes
//   READ_TELL=FD    before each of them, how many bytes of standard output were written goes to this file, as a line
//   REFUSE_STEP=N   behind each mark '>' that is written to standard output alone, up to a mark '<', the Nth allocation is refused
// Compiled with -DNEXT it hands on to whatever malloc is behind it, so that valgrind sees the memory (with
// --soname-synonyms=somalloc=nouserintercepts); else to that of the C library.
#define _GNU_SOURCE
#include <dlfcn.h>
#include <errno.h>
#include <stdio.h>
#include <stdlib.h>
#include <sys/auxv.h>
#include <sys/syscall.h>
#include <unistd.h>

#ifdef NEXT
#define HAND_ON(name, ...) ((__typeof__(&name))dlsym(RTLD_NEXT, #name))(__VA_ARGS__)
#else
extern void *__libc_malloc(size_t), *__libc_calloc(size_t, size_t), *__libc_realloc(void *, size_t);
#define HAND_ON(name, ...) __libc_##name(__VA_ARGS__)
#endif

static unsigned long allocations, reads, writes, steps, written;
static int is_marked;

static unsigned long word(const char *name) { return getenv(name) ? strtoul(getenv(name), 0, 10) : 0; }

// Whether this call is the one to refuse, and tells so.
static int is_refused(unsigned long count, const char *name) {
  if (count != word(name)) return 0;
  if (word("REFUSE_TELL")) syscall(SYS_write, word("REFUSE_TELL"), "x", 1);
  return 1;
}

static int is_no_memory(void *caller) {
  Dl_info from, program;
  if (!dladdr(caller, &from) || !dladdr((void *)getauxval(AT_ENTRY), &program)) return 0;
  if (from.dli_fbase != program.dli_fbase) return 0;
  int in_step = __atomic_load_n(&is_marked, __ATOMIC_SEQ_CST);
  int of_step = in_step && is_refused(__atomic_add_fetch(&steps, 1, __ATOMIC_SEQ_CST), "REFUSE_STEP");
  if (!is_refused(__atomic_add_fetch(&allocations, 1, __ATOMIC_SEQ_CST), "REFUSE_ALLOC") && !of_step) return 0;
  errno = ENOMEM;
  return 1;
}

void *malloc(size_t size) { return is_no_memory(__builtin_return_address(0)) ? 0 : HAND_ON(malloc, size); }
void *calloc(size_t n, size_t size) { return is_no_memory(__builtin_return_address(0)) ? 0 : HAND_ON(calloc, n, size); }
void *realloc(void *old, size_t size) { return is_no_memory(__builtin_return_address(0)) ? 0 : HAND_ON(realloc, old, size); }

// How much was written goes to the file that is to be told.
static void tell_written(void) {
  char line[24];
  int length = snprintf(line, sizeof line, "%lu\n", written);
  syscall(SYS_write, word("READ_TELL"), line, length);
}

ssize_t read(int file, void *to, size_t size) {
  int is_input = file == 0 || file > 2;
  if (file == 0 && word("READ_TELL")) tell_written();
  if (file == 0 && word("READ_MOST") && word("READ_MOST") < size) size = word("READ_MOST");
  if (is_input && is_refused(++reads, "REFUSE_READ")) return errno = EIO, -1;
  return syscall(SYS_read, file, to, is_input && word("ONE_BYTE") && size ? 1 : size);
}

// A mark begins or ends what REFUSE_STEP counts.
static void look_for_mark(int file, const void *from, size_t size) {
  char mark = file == 1 && size == 1 ? *(const char *)from : 0;
  if (mark == '>') steps = 0;
  if (mark == '>' || mark == '<') __atomic_store_n(&is_marked, mark == '>', __ATOMIC_SEQ_CST);
}

ssize_t write(int file, const void *from, size_t size) {
  look_for_mark(file, from, size);
  if (file == 1 && is_refused(++writes, "REFUSE_WRITE")) return errno = EIO, -1;
  if (file == 1 && is_refused(writes, "REFUSE_TAKE")) return 0;
  ssize_t taken = syscall(SYS_write, file, from, file == 1 && word("ONE_BYTE") && size ? 1 : size);
  if (file == 1 && taken > 0) written += taken;
  return taken;
}
