/* Loaded before the C library's own: calls a program's `main` once for each request, in one process, and lends it its standard
   input, output and error in memory, since to start a program and to wake it up takes many times as long as what it does with a
   short input. And counts the growths of its memory, its reads and its writes, and refuses one of them. `program.py` builds it
   and asks it. It is for programs that read and write by `read` and `write`, whose `main` returns, and which keep nothing from
   call to call.

   What is sent, on the descriptor that REQUESTS names, is how many requests there are, and each of them: the number of the growth,
   of the read and of the write that is refused, 0 for none; how many bytes a read or a write takes at most; the standard input;
   how many words there are, and each word. What is answered after the last one, on the descriptor that ANSWERS names, is for each
   the status, how many growths, reads and writes there were, the standard output, and what stands on standard error. Numbers have
   4 bytes, and a text is its length and its bytes. */
#define _GNU_SOURCE
#include <dlfcn.h>
#include <elf.h>
#include <errno.h>
#include <link.h>
#include <stdint.h>
#include <stdlib.h>
#include <string.h>
#include <sys/syscall.h>
#include <unistd.h>

typedef int (*main_function)(int, char **, char **);
typedef void (*hook)(void);
typedef void (*constructor)(int, char **, char **);
typedef struct {
    char *bytes;
    size_t length, capacity;
} buffer;

/* How many calls of a kind there were, and the number of the one that is refused. */
typedef struct {
    uint32_t count, refused;
} calls;

static main_function program;
static int requests, answers, is_running;
static calls growths, reads, writes;
static size_t piece;
static buffer input, output, note, words_bytes, answered;
static size_t taken;

/* ---- memory */

static int is_refused(calls *kind, int error)
{
    if (!is_running || ++kind->count != kind->refused)
        return 0;
    errno = error;
    return 1;
}

void *malloc(size_t size)
{
    static void *(*next)(size_t);
    if (!next)
        next = dlsym(RTLD_NEXT, "malloc");
    return is_refused(&growths, ENOMEM) ? NULL : next(size);
}

void *realloc(void *old, size_t size)
{
    static void *(*next)(void *, size_t);
    if (!next)
        next = dlsym(RTLD_NEXT, "realloc");
    return is_refused(&growths, ENOMEM) ? NULL : next(old, size);
}

/* Capacity for so many bytes more. It is no growth of the program's. */
static char *reserve(buffer *to, size_t count)
{
    int was_running = is_running;

    is_running = 0;
    while (to->capacity - to->length < count) {
        to->capacity = 2 * to->capacity + 4096;
        to->bytes = realloc(to->bytes, to->capacity);
        if (!to->bytes)
            abort();
    }
    is_running = was_running;
    return to->bytes + to->length;
}

static void append(buffer *to, const void *bytes, size_t count)
{
    memcpy(reserve(to, count), bytes, count);
    to->length += count;
}

/* ---- standard input, output and error */

ssize_t read(int file, void *to, size_t count)
{
    if (!is_running || file != 0)
        return syscall(SYS_read, file, to, count);
    if (is_refused(&reads, EIO))
        return -1;
    if (count > piece)
        count = piece;
    if (count > input.length - taken)
        count = input.length - taken;
    memcpy(to, input.bytes + taken, count);
    taken += count;
    return count;
}

ssize_t write(int file, const void *bytes, size_t count)
{
    if (!is_running || (file != 1 && file != 2))
        return syscall(SYS_write, file, bytes, count);
    if (file == 2) {
        append(&note, bytes, count);
        return count;
    }
    if (is_refused(&writes, EIO))
        return -1;
    if (count > piece)
        count = piece;
    append(&output, bytes, count);
    return count;
}

/* ---- requests and answers */

static void take(void *to, size_t count)
{
    char *at = to;
    while (count) {
        ssize_t n = read(requests, at, count);
        if (n <= 0)
            _exit(0);
        at += n;
        count -= n;
    }
}

static uint32_t number(void)
{
    uint32_t value;
    take(&value, 4);
    return value;
}

static calls calls_of_request(void)
{
    calls kind = {0, number()};
    return kind;
}

static void take_text(buffer *to)
{
    uint32_t length = number();
    take(reserve(to, length), length);
    to->length += length;
}

/* The words of a request, after the name of the program. */
static char **words_of_request(char *name, int *count)
{
    static char **words;
    uint32_t given = number();

    words = realloc(words, (given + 2) * sizeof *words);
    words_bytes.length = 0;
    for (uint32_t i = 0; i < given; i++) {
        words[i + 1] = (char *)words_bytes.length;
        take_text(&words_bytes);
        append(&words_bytes, "", 1);
    }
    for (uint32_t i = 0; i < given; i++)
        words[i + 1] = words_bytes.bytes + (size_t)words[i + 1];
    words[0] = name;
    words[given + 1] = NULL;
    *count = given + 1;
    return words;
}

static void append_number(uint32_t value)
{
    append(&answered, &value, 4);
}

static void append_text(const buffer *text)
{
    append_number(text->length);
    append(&answered, text->bytes, text->length);
}

/* Calls the program's constructors once more: it keeps its words by one. */
static void construct(int count, char **words, char **environment)
{
    static struct link_map *map;
    constructor *constructors = NULL;
    size_t size = 0;

    if (!map)
        map = dlopen(NULL, RTLD_LAZY);
    for (ElfW(Dyn) *entry = map->l_ld; entry->d_tag != DT_NULL; entry++) {
        if (entry->d_tag == DT_INIT_ARRAY)
            constructors = (constructor *)(map->l_addr + entry->d_un.d_ptr);
        if (entry->d_tag == DT_INIT_ARRAYSZ)
            size = entry->d_un.d_val / sizeof(constructor);
    }
    for (size_t i = 0; i < size; i++)
        constructors[i](count, words, environment);
}

static void answer_request(char *name, char **environment)
{
    char **words;
    int count, status;

    growths = calls_of_request();
    reads = calls_of_request();
    writes = calls_of_request();
    piece = number();
    taken = input.length = output.length = note.length = 0;
    reserve(&output, 1);
    reserve(&note, 1);
    take_text(&input);
    words = words_of_request(name, &count);
    construct(count, words, environment);
    is_running = 1;
    status = program(count, words, environment);
    is_running = 0;
    append_number(status & 255);
    append_number(growths.count);
    append_number(reads.count);
    append_number(writes.count);
    append_text(&output);
    append_text(&note);
}

static int serve(int argc, char **argv, char **environment)
{
    (void)argc;
    for (;;) {
        answered.length = 0;
        for (uint32_t left = number(); left; left--)
            answer_request(argv[0], environment);
        for (size_t sent = 0; sent < answered.length;) {
            ssize_t n = write(answers, answered.bytes + sent, answered.length - sent);
            if (n <= 0)
                return 1;
            sent += n;
        }
    }
}

int __libc_start_main(main_function main, int argc, char **argv, hook init, hook fini, hook end, void *stack)
{
    int (*next)(main_function, int, char **, hook, hook, hook, void *);

    next = dlsym(RTLD_NEXT, "__libc_start_main");
    program = main;
    requests = atoi(getenv("REQUESTS"));
    answers = atoi(getenv("ANSWERS"));
    return next(serve, argc, argv, init, fini, end, stack);
}
