/* What mte_run asks of a system, for a page: its arguments, and files in memory. What it writes to
   standard output and standard error goes to the page at once; files that it makes stay here until
   the page takes them. */
#include "small.h"

enum { MOST_FILES = 128, MOST_WORDS = 128, NAME = 256 };
enum { ENOENT = 2, EBADF = 9, ENOMEM = 12, EEXIST = 17, EMFILE = 24 };
enum { O_CREAT = 0100, O_EXCL = 0200, O_TRUNC = 01000, AT_EMPTY_PATH = 0x1000 };

__attribute__((import_module("page"), import_name("write"))) void page_write(
    int stream, const uint8_t *bytes, size_t count);

/* The next slice has so many steps. */
__attribute__((import_module("page"), import_name("slice"))) void page_slice(unsigned steps);

struct file {
    char name[NAME];
    uint8_t *bytes;
    size_t length, capacity;
};

static struct file files[MOST_FILES];
static int file_count;
static struct {
    struct file *file;
    size_t at;
} opened[MOST_FILES];
static const char *words[MOST_WORDS];
static size_t word_count;
static int error_number;

static size_t length_of(const char *text)
{
    size_t count = 0;
    while (text[count])
        count++;
    return count;
}

static bool is_same(const char *one, const char *other)
{
    size_t count = length_of(one);
    return count == length_of(other) && !__builtin_memcmp(one, other, count);
}

static struct file *named(const char *name)
{
    for (int at = 0; at < file_count; at++)
        if (is_same(files[at].name, name))
            return &files[at];
    return 0;
}

/* A place with an empty name is free. */
static struct file *make(const char *name)
{
    size_t count = length_of(name);
    struct file *made = named("");
    if (!made && file_count < MOST_FILES)
        made = &files[file_count++];
    if (!made || !count || count >= NAME)
        return 0;
    __builtin_memcpy(made->name, name, count + 1);
    return made;
}

/* For the page: a word of the command line, a file that is there, and one that was made. */

EXPORT(page_word) bool page_word(const char *word)
{
    if (word_count == MOST_WORDS)
        return 0;
    words[word_count++] = word;
    return 1;
}

EXPORT(page_file) bool page_file(const char *name, uint8_t *bytes, size_t length)
{
    struct file *file = make(name);
    if (!file)
        return 0;
    file->bytes = bytes;
    file->length = file->capacity = length;
    return 1;
}

EXPORT(page_length) ptrdiff_t page_length(const char *name)
{
    struct file *file = named(name);
    return file ? (ptrdiff_t)file->length : -1;
}

EXPORT(page_bytes) uint8_t *page_bytes(const char *name)
{
    struct file *file = named(name);
    return file ? file->bytes : 0;
}

int main(void);
ptrdiff_t write(int at, const uint8_t *bytes, size_t count);

/* The line that --version has more here: what lies between the build and this module. */
static const char COMPILED[] =
    "module:    wasm64, compiled from the LLVM module of that build for x86-64,\n"
    "           with a call at each slice and the C of tools/wasm/system\n";

EXPORT(page_run) int page_run(void)
{
    int status = main();
    if (word_count == 2 && is_same(words[1], "--version"))
        write(1, (const uint8_t *)COMPILED, sizeof COMPILED - 1);
    return status;
}

/* Called where the module begins a slice (tools/wasm/module.py). */
void system_slice(unsigned steps)
{
    page_slice(steps);
}

/* For the program. */

int memcmp(const void *one, const void *other, size_t count)
{
    const uint8_t *left = one, *right = other;
    for (size_t at = 0; at < count; at++)
        if (left[at] != right[at])
            return left[at] < right[at] ? -1 : 1;
    return 0;
}

static int fail(int error)
{
    error_number = error;
    return -1;
}

int rattle_errno(void)
{
    return error_number;
}

void rattle_set_errno(int error)
{
    error_number = error;
}

size_t rattle_arg_count(void)
{
    return word_count;
}

ptrdiff_t rattle_arg(size_t index, uint8_t *to, size_t capacity)
{
    if (index >= word_count)
        return -1;
    size_t count = length_of(words[index]);
    if (count > capacity)
        return -2;
    __builtin_memcpy(to, words[index], count);
    return (ptrdiff_t)count;
}

int open(const char *name, int flags, ...)
{
    struct file *file = named(name);
    if (!*name)
        return fail(ENOENT);
    if (file && flags & O_CREAT && flags & O_EXCL)
        return fail(EEXIST);
    if (!file && flags & O_CREAT)
        file = make(name);
    if (!file)
        return fail(ENOENT);
    if (flags & O_TRUNC)
        file->length = 0;
    for (int at = 3; at < MOST_FILES; at++)
        if (!opened[at].file) {
            opened[at].file = file;
            opened[at].at = 0;
            return at;
        }
    return fail(EMFILE);
}

static bool is_open(int at)
{
    return at >= 3 && at < MOST_FILES && opened[at].file;
}

int close(int at)
{
    if (!is_open(at))
        return fail(EBADF);
    opened[at].file = 0;
    return 0;
}

ptrdiff_t read(int at, uint8_t *to, size_t capacity)
{
    if (!is_open(at))
        return at == 0 ? 0 : fail(EBADF);
    struct file *file = opened[at].file;
    size_t left = file->length - opened[at].at;
    size_t count = capacity < left ? capacity : left;
    if (count)
        __builtin_memcpy(to, file->bytes + opened[at].at, count);
    opened[at].at += count;
    return (ptrdiff_t)count;
}

/* Gives a file more memory where it needs that. */
static bool reserve(struct file *file, size_t length)
{
    if (length <= file->capacity)
        return 1;
    uint8_t *made = page_alloc(length * 2);
    if (!made)
        return 0;
    if (file->capacity) {
        __builtin_memcpy(made, file->bytes, file->length);
        page_free(file->bytes);
    }
    file->bytes = made;
    file->capacity = length * 2;
    return 1;
}

ptrdiff_t write(int at, const uint8_t *bytes, size_t count)
{
    if (at == 1 || at == 2) {
        page_write(at, bytes, count);
        return (ptrdiff_t)count;
    }
    if (!is_open(at))
        return fail(EBADF);
    struct file *file = opened[at].file;
    size_t end = opened[at].at + count;
    if (!reserve(file, end))
        return fail(ENOMEM);
    if (count)
        __builtin_memcpy(file->bytes + opened[at].at, bytes, count);
    opened[at].at = end;
    if (end > file->length)
        file->length = end;
    return (ptrdiff_t)count;
}

ptrdiff_t __write(int at, const uint8_t *bytes, size_t count)
{
    return write(at, bytes, count);
}

void *__sysv_signal(int number, void *handler)
{
    (void)number, (void)handler;
    return 0;
}

/* Its bytes stay where they are until another file takes its place. */
int unlink(const char *name)
{
    struct file *file = named(name);
    if (!file || !*name)
        return fail(ENOENT);
    file->name[0] = 0;
    file->length = 0;
    return 0;
}

int rename(const char *from, const char *to)
{
    struct file *file = named(from), *other = named(to);
    size_t count = length_of(to);
    if (!file || !*from || !count || count >= NAME)
        return fail(ENOENT);
    if (other && other != file)
        unlink(to);
    __builtin_memcpy(file->name, to, count + 1);
    return 0;
}

/* Each file is a regular one (stx_mode): one that is open, or one by its name. */
int statx(int at, const char *name, int flags, unsigned mask, uint8_t *to)
{
    (void)at, (void)mask;
    if (!(flags & AT_EMPTY_PATH) && !(*name && named(name)))
        return fail(ENOENT);
    __builtin_memset(to, 0, 256);
    to[28] = 0xa4;
    to[29] = 0x81;
    return 0;
}

/* A program that was lowered for x86-64 asks whether its processor is new enough: it is. */
const uint8_t *__x86_get_cpuid_feature_leaf(unsigned leaf)
{
    static uint8_t all[32];
    (void)leaf;
    __builtin_memset(all, 255, sizeof all);
    return all;
}
