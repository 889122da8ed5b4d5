/*
 * Stands between a program and the C library, by LD_PRELOAD, and refuses calls of the program:
 *
 *   REFUSE_ALLOCATION=N  the Nth malloc or realloc gives no memory
 *   REFUSE_READ=N        the Nth read of standard input fails
 *   REFUSE_WRITE=N       the Nth write to standard output fails
 *   REFUSE_THREAD=N      the Nth thread can't be made
 *   PIECE=B              a write to standard output takes B bytes at most
 *   MORE=K               the process may have K KiB more memory than it has at the start, its stack already having its room
 *   TALLY=FILE           at its end the run writes into this file how many allocations it asked for, how often it read standard
 *                        input and wrote to standard output, and how many threads it asked for; and then, a line each, the
 *                        sizes of the blocks of memory that it had not given back
 *
 * Numbers count from 1, and 0 stands for every call. Memory counts where the program itself asks for it; what the C library
 * takes for its own use does not.
 */
#define _GNU_SOURCE
#include <dlfcn.h>
#include <errno.h>
#include <fcntl.h>
#include <link.h>
#include <pthread.h>
#include <stdatomic.h>
#include <stdio.h>
#include <stdlib.h>
#include <string.h>
#include <sys/resource.h>
#include <unistd.h>

extern void *__libc_malloc(size_t size);
extern void *__libc_realloc(void *block, size_t size);
extern void __libc_free(void *block);

enum { NONE = -1, ALL = 0 };

/* What stands before each block that the program has. All of them are a ring. */
struct head {
  struct head *before, *after;
  size_t size, unused;
};

static long refused_allocation = NONE, refused_read = NONE, refused_write = NONE, refused_thread = NONE, piece = NONE;
static atomic_long allocations, reads, writes, threads;
static struct head ring = {&ring, &ring, 0, 0};
static pthread_mutex_t lock = PTHREAD_MUTEX_INITIALIZER;
static ElfW(Addr) program_start, program_end;

/* The calls of the C library. */
static ssize_t (*next_read)(int, void *, size_t);
static ssize_t (*next_write)(int, const void *, size_t);
static int (*next_pthread_create)(pthread_t *, const pthread_attr_t *, void *(*)(void *), void *);
static void (*next_exit)(int);

/* The number that a variable of the environment has. */
static long number_of(const char *name) {
  const char *text = getenv(name);
  return text ? atol(text) : NONE;
}

/* Notes where the program itself lies, which is the first object of all. */
static int note_program(struct dl_phdr_info *object, size_t size, void *data) {
  (void)size, (void)data;
  for (int i = 0; i < object->dlpi_phnum; i++) {
    const ElfW(Phdr) *part = &object->dlpi_phdr[i];
    ElfW(Addr) start = object->dlpi_addr + part->p_vaddr;
    if (part->p_type != PT_LOAD || !(part->p_flags & PF_X)) continue;
    if (!program_end || start < program_start) program_start = start;
    if (start + part->p_memsz > program_end) program_end = start + part->p_memsz;
  }
  return 1;
}

/* Makes the stack as large as the program will need it: a stack that can't grow ends a process, whatever its program does. */
static void grow_stack(void) {
  volatile char room[2 << 20];
  for (size_t i = 0; i < sizeof room; i += 4096) room[i] = 1;
}

/* Limits the memory of the process to so many KiB more than it has. */
static void limit_memory(long more) {
  long pages = 0;
  FILE *file = fopen("/proc/self/statm", "r");
  if (!file || fscanf(file, "%ld", &pages) != 1) abort();
  fclose(file);
  rlim_t most = (rlim_t)pages * sysconf(_SC_PAGESIZE) + (rlim_t)more * 1024;
  if (setrlimit(RLIMIT_AS, &(struct rlimit){most, most})) abort();
}

__attribute__((constructor)) static void begin(void) {
  next_read = (ssize_t(*)(int, void *, size_t))dlsym(RTLD_NEXT, "read");
  next_write = (ssize_t(*)(int, const void *, size_t))dlsym(RTLD_NEXT, "write");
  next_pthread_create = (int (*)(pthread_t *, const pthread_attr_t *, void *(*)(void *), void *))dlsym(RTLD_NEXT, "pthread_create");
  next_exit = (void (*)(int))dlsym(RTLD_NEXT, "_exit");
  refused_allocation = number_of("REFUSE_ALLOCATION");
  refused_read = number_of("REFUSE_READ");
  refused_write = number_of("REFUSE_WRITE");
  refused_thread = number_of("REFUSE_THREAD");
  piece = number_of("PIECE");
  dl_iterate_phdr(note_program, NULL);
  long more = number_of("MORE");
  if (more == NONE) return;
  grow_stack();
  limit_memory(more);
}

__attribute__((destructor)) static void tell(void) {
  const char *name = getenv("TALLY");
  int file = name ? open(name, O_WRONLY | O_CREAT | O_TRUNC, 0600) : -1;
  if (file < 0) return;
  dprintf(file, "%ld %ld %ld %ld\n", allocations, reads, writes, threads);
  for (struct head *head = ring.after; head != &ring; head = head->after) dprintf(file, "%zu\n", head->size);
  close(file);
}

/* Whether a call came from the program itself. */
static int is_own(void *caller) {
  return (ElfW(Addr))caller >= program_start && (ElfW(Addr))caller < program_end;
}

/* Whether this call, one more of those counted, is to be refused. */
static int is_refused(atomic_long *count, long refused) {
  long number = atomic_fetch_add(count, 1) + 1;
  return refused == ALL || refused == number;
}

/* Puts a block of this size into the ring, and gives what is behind its head. */
static void *kept(struct head *head, size_t size) {
  pthread_mutex_lock(&lock);
  *head = (struct head){&ring, ring.after, size, 0};
  head->after->before = ring.after = head;
  pthread_mutex_unlock(&lock);
  return head + 1;
}

/* Takes a block out of the ring. */
static struct head *taken_out(void *block) {
  struct head *head = (struct head *)block - 1;
  pthread_mutex_lock(&lock);
  head->before->after = head->after;
  head->after->before = head->before;
  pthread_mutex_unlock(&lock);
  return head;
}

void *malloc(size_t size) {
  if (!is_own(__builtin_return_address(0))) return __libc_malloc(size);
  struct head *head = is_refused(&allocations, refused_allocation) ? NULL : __libc_malloc(size + sizeof *head);
  if (head) return kept(head, size);
  errno = ENOMEM;
  return NULL;
}

void *realloc(void *block, size_t size) {
  if (!is_own(__builtin_return_address(0))) return __libc_realloc(block, size);
  struct head *head = is_refused(&allocations, refused_allocation) ? NULL : __libc_malloc(size + sizeof *head);
  if (!head) {
    errno = ENOMEM;
    return NULL;
  }
  if (block) {
    struct head *old = taken_out(block);
    memcpy(head + 1, block, old->size < size ? old->size : size);
    __libc_free(old);
  }
  return kept(head, size);
}

void free(void *block) {
  __libc_free(block && is_own(__builtin_return_address(0)) ? taken_out(block) : block);
}

ssize_t read(int file, void *into, size_t size) {
  if (file == STDIN_FILENO && is_own(__builtin_return_address(0)) && is_refused(&reads, refused_read)) {
    errno = EIO;
    return -1;
  }
  return next_read(file, into, size);
}

ssize_t write(int file, const void *from, size_t size) {
  if (file == STDOUT_FILENO && is_own(__builtin_return_address(0))) {
    if (is_refused(&writes, refused_write)) {
      errno = EIO;
      return -1;
    }
    if (piece != NONE && size > (size_t)piece) size = piece;
  }
  return next_write(file, from, size);
}

int pthread_create(pthread_t *thread, const pthread_attr_t *how, void *(*work)(void *), void *of) {
  return is_refused(&threads, refused_thread) ? EAGAIN : next_pthread_create(thread, how, work, of);
}

/* A program may end so, without its destructors. */
void _exit(int status) {
  tell();
  next_exit(status);
  __builtin_unreachable();
}
