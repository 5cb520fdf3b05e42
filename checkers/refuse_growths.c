/* Refuses one growth of memory, or one read or write, to the program that it is loaded into, and tells when it does.

   refuse_growths.py compiles it, and loads it into a program by LD_PRELOAD. It stands before the C library's own malloc, calloc and
   realloc, which it hands all other calls on to, and before its read and write. The environment says what is refused: REFUSES is
   `growths`, `reads` or `writes`, and NUMBER the number of the one that is, from 1. A byte is written to the descriptor TELLS in the
   moment in which it is refused. They are counted from the start of `main`; or, if COUNTS is `between`, from where the program has
   written that they are counted, to where it has written that they go by. What the C library takes before `main` is not counted, nor
   what is taken once it has returned. */

#define _GNU_SOURCE
#include <dlfcn.h>
#include <errno.h>
#include <stdlib.h>
#include <string.h>
#include <sys/syscall.h>
#include <unistd.h>

extern void *__libc_malloc(size_t size);
extern void *__libc_calloc(size_t count, size_t size);
extern void *__libc_realloc(void *block, size_t size);

typedef int program(int count, char **words, char **environment);
typedef int starter(program *run, int count, char **words, void (*begin)(void), void (*end)(void), void (*linker_end)(void), void *stack);

static const char BEGIN[] = "growths are counted";
static const char END[] = "growths go by";

enum kind { GROWTHS, READS, WRITES };

static long refused, counted;
static int tells, between, counts;
static enum kind refuses;
static program *counted_program;

static int is_refused(enum kind kind)
{
    if (!counts || kind != refuses || ++counted != refused)
        return 0;
    syscall(SYS_write, tells, ".", 1);
    errno = kind == GROWTHS ? ENOMEM : EIO;
    return 1;
}

void *malloc(size_t size)
{
    return is_refused(GROWTHS) ? NULL : __libc_malloc(size);
}

void *calloc(size_t count, size_t size)
{
    return is_refused(GROWTHS) ? NULL : __libc_calloc(count, size);
}

void *realloc(void *block, size_t size)
{
    return is_refused(GROWTHS) ? NULL : __libc_realloc(block, size);
}

ssize_t read(int file, void *bytes, size_t length)
{
    return is_refused(READS) ? -1 : syscall(SYS_read, file, bytes, length);
}

ssize_t write(int file, const void *bytes, size_t length)
{
    if (between && memmem(bytes, length, BEGIN, strlen(BEGIN)))
        counts = 1;
    if (between && memmem(bytes, length, END, strlen(END)))
        counts = 0;
    return is_refused(WRITES) ? -1 : syscall(SYS_write, file, bytes, length);
}

static enum kind kind_of(const char *name)
{
    if (name && strcmp(name, "reads") == 0)
        return READS;
    return name && strcmp(name, "writes") == 0 ? WRITES : GROWTHS;
}

static int run_counted(int count, char **words, char **environment)
{
    counts = !between;
    int status = counted_program(count, words, environment);
    counts = 0;
    return status;
}

int __libc_start_main(program *run, int count, char **words, void (*begin)(void), void (*end)(void), void (*linker_end)(void), void *stack)
{
    starter *start = (starter *)dlsym(RTLD_NEXT, "__libc_start_main");
    const char *number = getenv("NUMBER"), *descriptor = getenv("TELLS"), *where = getenv("COUNTS");
    refused = number ? atol(number) : 0;
    refuses = kind_of(getenv("REFUSES"));
    tells = descriptor ? atoi(descriptor) : -1;
    between = where && strcmp(where, "between") == 0;
    counted_program = run;
    return start(run_counted, count, words, begin, end, linker_end, stack);
}
