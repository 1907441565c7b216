/* Preloaded into a program, this refuses what the program asks of the C library.

   The variable REFUSE says what is refused, N counting the program's calls from 1:

     memory N    the Nth request for memory
     famine N    the Nth request for memory and each one after it
     read N      the Nth read fails (EIO)
     broken N    the Nth read is interrupted (EINTR)
     write N     the Nth write to standard output fails (EIO)
     empty N     the Nth write to standard output takes no byte
     signal N    the Nth write to standard output is interrupted (EINTR)
     tell N      the Nth write to standard error fails (EIO)
     bytes 0     each read and each write moves one byte; those that asked for more are refused the rest
     nothing 0   nothing

   With PIECES set to `1` each read and each write moves one byte beside, which is not counted as refused.

   When the program ends, one line goes to the descriptor that REPORT names: how many requests, reads, writes to standard
   output and writes to standard error there were, how many of all of them were refused, how many bytes of memory were
   asked for, and the most blocks that were held at once.

   Only calls from the program's own code count: those whose return address lies in it. What the loader and the C library
   ask for themselves is theirs, before `main` and after, and is never refused. */

#define _GNU_SOURCE
#include <errno.h>
#include <link.h>
#include <stdint.h>
#include <stdio.h>
#include <stdlib.h>
#include <string.h>
#include <sys/syscall.h>
#include <unistd.h>

/* The C library's own, under the names by which it can be reached from here. */
void *__libc_malloc(size_t size);
void *__libc_calloc(size_t count, size_t size);
void *__libc_realloc(void *block, size_t size);
void *__libc_memalign(size_t alignment, size_t size);
void __libc_free(void *block);

enum { REQUESTS, READS, WRITES, TELLS, KINDS };

static unsigned long counted[KINDS], refused, chosen, asked, blocks, most_blocks;
static char what[16] = "nothing";
static int by_bytes;
static uintptr_t code_begin, code_end;

/* The first object that is listed is the program. Its parts rise by address. */
static int find_code(struct dl_phdr_info *object, size_t size, void *unused) {
    for (int i = 0; i < object->dlpi_phnum; i++) {
        const ElfW(Phdr) *part = &object->dlpi_phdr[i];
        if (part->p_type == PT_LOAD && (part->p_flags & PF_X)) {
            uintptr_t begin = object->dlpi_addr + part->p_vaddr;
            if (code_begin == 0)
                code_begin = begin;
            code_end = begin + part->p_memsz;
        }
    }
    return 1;
}

__attribute__((constructor)) static void begin(void) {
    const char *words = getenv("REFUSE");
    if (words != NULL && sscanf(words, "%15s %lu", what, &chosen) == 2)
        dl_iterate_phdr(find_code, NULL);
    by_bytes = getenv("PIECES") != NULL;
}

__attribute__((destructor)) static void report(void) {
    char line[192];
    const char *descriptor = getenv("REPORT");
    int length = snprintf(line, sizeof line, "%lu %lu %lu %lu %lu %lu %lu\n", counted[REQUESTS], counted[READS],
                          counted[WRITES], counted[TELLS], refused, asked, most_blocks);
    if (descriptor != NULL)
        syscall(SYS_write, atoi(descriptor), line, (size_t)length);
}

/* A program that may start threads ends by this, and what is to be done at the end of a program is left out. */
void _exit(int status) {
    report();
    syscall(SYS_exit_group, status);
    __builtin_unreachable();
}

#define FROM_PROGRAM ((uintptr_t)__builtin_return_address(0) - code_begin < code_end - code_begin)

static int is(const char *word) { return strcmp(what, word) == 0; }

/* The number of this call, from 1. Threads of the program count together. */
static unsigned long tally(int kind) { return __atomic_add_fetch(&counted[kind], 1, __ATOMIC_SEQ_CST); }

static void refuse(void) { __atomic_add_fetch(&refused, 1, __ATOMIC_SEQ_CST); }

/* Whether the call of this number is to be refused. */
static int is_chosen(const char *word, unsigned long number) {
    int hit = is(word) && number == chosen;
    if (hit)
        refuse();
    return hit;
}

/* Whether this request for memory is to be refused. */
static int has_no_memory(size_t size) {
    unsigned long number = tally(REQUESTS);
    __atomic_add_fetch(&asked, size, __ATOMIC_SEQ_CST);
    if (is_chosen("memory", number))
        return 1;
    if (!is("famine") || number < chosen)
        return 0;
    refuse();
    return 1;
}

#define REFUSE_MEMORY(size)                                                                                              \
    if (FROM_PROGRAM && has_no_memory(size)) {                                                                           \
        errno = ENOMEM;                                                                                                  \
        return NULL;                                                                                                     \
    }

/* Counts a block that is held from here on. */
static void *held(void *block) {
    unsigned long now = block == NULL ? 0 : __atomic_add_fetch(&blocks, 1, __ATOMIC_SEQ_CST);
    unsigned long most = __atomic_load_n(&most_blocks, __ATOMIC_SEQ_CST);
    while (now > most && !__atomic_compare_exchange_n(&most_blocks, &most, now, 0, __ATOMIC_SEQ_CST, __ATOMIC_SEQ_CST)) {
    }
    return block;
}

void free(void *block) {
    if (block != NULL)
        __atomic_sub_fetch(&blocks, 1, __ATOMIC_SEQ_CST);
    __libc_free(block);
}

void *malloc(size_t size) {
    REFUSE_MEMORY(size)
    return held(__libc_malloc(size));
}

void *calloc(size_t count, size_t size) {
    REFUSE_MEMORY(count * size)
    return held(__libc_calloc(count, size));
}

void *realloc(void *block, size_t size) {
    REFUSE_MEMORY(size)
    return block == NULL ? held(__libc_realloc(block, size)) : __libc_realloc(block, size);
}

void *aligned_alloc(size_t alignment, size_t size) {
    REFUSE_MEMORY(size)
    return held(__libc_memalign(alignment, size));
}

int posix_memalign(void **block, size_t alignment, size_t size) {
    if (FROM_PROGRAM && has_no_memory(size))
        return ENOMEM;
    *block = held(__libc_memalign(alignment, size));
    return *block == NULL ? ENOMEM : 0;
}

static ssize_t fails(int error) {
    errno = error;
    return -1;
}

/* How many bytes a read or a write may move that asks for this number. */
static size_t allowed(size_t count) {
    if (count < 2 || !(by_bytes || is("bytes")))
        return count;
    if (!by_bytes)
        refuse();
    return 1;
}

ssize_t read(int descriptor, void *bytes, size_t count) {
    if (FROM_PROGRAM) {
        unsigned long number = tally(READS);
        if (is_chosen("read", number))
            return fails(EIO);
        if (is_chosen("broken", number))
            return fails(EINTR);
        count = allowed(count);
    }
    return syscall(SYS_read, descriptor, bytes, count);
}

ssize_t write(int descriptor, const void *bytes, size_t count) {
    if (FROM_PROGRAM && descriptor == STDERR_FILENO) {
        if (is_chosen("tell", tally(TELLS)))
            return fails(EIO);
    } else if (FROM_PROGRAM) {
        unsigned long number = tally(WRITES);
        if (is_chosen("write", number))
            return fails(EIO);
        if (is_chosen("signal", number))
            return fails(EINTR);
        if (is_chosen("empty", number))
            return 0;
    }
    if (FROM_PROGRAM)
        count = allowed(count);
    return syscall(SYS_write, descriptor, bytes, count);
}
