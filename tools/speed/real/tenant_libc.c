/* The rest of the C library that the programs use, for a tenant: its start, the heap and files
   as services, jumps, and text of integers. What a program links and never calls ends it with
   status 99. */
#include <stdarg.h>
#include <stdint.h>
#include <string.h>
#include "../../../examples/c/tenant.h"

enum { UNSUPPORTED = 99, DIGITS = 24 };

int main(void);

_Noreturn void _start(void)
{
    tenant_exit(main());
}

_Noreturn void abort(void)
{
    tenant_exit(UNSUPPORTED);
}

_Noreturn void exit(int code)
{
    tenant_exit(code);
}

void *malloc(size_t size)
{
    return tenant_malloc(size);
}

void *calloc(size_t count, size_t size)
{
    return tenant_calloc(count, size);
}

void *realloc(void *chunk, size_t size)
{
    return chunk ? tenant_realloc(chunk, size) : tenant_malloc(size);
}

void free(void *chunk)
{
    tenant_free(chunk);
}

/* Standard input is the tenant's input, every other file its output. */
long read(int file, void *bytes, size_t count)
{
    return file ? -1 : (long)tenant_read(bytes, count);
}

long write(int file, const void *bytes, size_t count)
{
    (void)file;
    return (long)tenant_write(bytes, count);
}

/* Registers 19 to 30 and SP, in this order. */
__asm__(
    ".globl _setjmp\n"
    "_setjmp:\n"
    "stp x19, x20, [x0]\n"
    "stp x21, x22, [x0, #16]\n"
    "stp x23, x24, [x0, #32]\n"
    "stp x25, x26, [x0, #48]\n"
    "stp x27, x28, [x0, #64]\n"
    "mov x2, sp\n"
    "stp x29, x30, [x0, #80]\n"
    "str x2, [x0, #96]\n"
    "mov x0, #0\n"
    "ret\n"
    ".globl longjmp\n"
    "longjmp:\n"
    "ldp x19, x20, [x0]\n"
    "ldp x21, x22, [x0, #16]\n"
    "ldp x23, x24, [x0, #32]\n"
    "ldp x25, x26, [x0, #48]\n"
    "ldp x27, x28, [x0, #64]\n"
    "ldr x2, [x0, #96]\n"
    "ldp x29, x30, [x0, #80]\n"
    "mov sp, x2\n"
    "cmp w1, #0\n"
    "csinc w0, w1, wzr, ne\n"
    "ret\n");

int isdigit(int byte)
{
    return byte >= '0' && byte <= '9';
}

int islower(int byte)
{
    return byte >= 'a' && byte <= 'z';
}

int isupper(int byte)
{
    return byte >= 'A' && byte <= 'Z';
}

int isalpha(int byte)
{
    return islower(byte) || isupper(byte);
}

int isalnum(int byte)
{
    return isalpha(byte) || isdigit(byte);
}

int isgraph(int byte)
{
    return byte > ' ' && byte < 127;
}

int ispunct(int byte)
{
    return isgraph(byte) && !isalnum(byte);
}

int iscntrl(int byte)
{
    return (byte >= 0 && byte < ' ') || byte == 127;
}

int isspace(int byte)
{
    return byte == ' ' || (byte >= '\t' && byte <= '\r');
}

int isxdigit(int byte)
{
    return isdigit(byte) || (byte >= 'a' && byte <= 'f') || (byte >= 'A' && byte <= 'F');
}

int tolower(int byte)
{
    return isupper(byte) ? byte + 'a' - 'A' : byte;
}

int toupper(int byte)
{
    return islower(byte) ? byte + 'A' - 'a' : byte;
}

/* The digits of a number in front of `end`; returns where they begin. */
static char *put_number(char *end, long long value)
{
    unsigned long long left = value < 0 ? -(unsigned long long)value : (unsigned long long)value;
    do
        *--end = (char)('0' + left % 10);
    while (left /= 10);
    if (value < 0)
        *--end = '-';
    return end;
}

/* Of C's snprintf what Lua asks for: a format of one conversion, `%lld` or `%s` with a least
   width. */
int snprintf(char *to, size_t size, const char *format, ...)
{
    char room[DIGITS];
    const char *text;
    size_t width = 0, count;
    int left = *format++ == '%' && *format == '-';
    va_list arguments;
    va_start(arguments, format);
    for (format += left; isdigit(*format); format++)
        width = width * 10 + (size_t)(*format - '0');
    if (strcmp(format, "lld") == 0) {
        text = put_number(room + DIGITS, va_arg(arguments, long long));
        count = (size_t)(room + DIGITS - text);
    } else if (strcmp(format, "s") == 0) {
        text = va_arg(arguments, const char *);
        count = strlen(text);
    } else {
        abort();
    }
    va_end(arguments);
    if (width < count)
        width = count;
    if (width >= size)
        abort();
    memset(to, ' ', width);
    memcpy(left ? to : to + width - count, text, count);
    to[width] = 0;
    return (int)width;
}

/* Expat's salt, which nothing of a sum depends on. */
int gettimeofday(long *time, void *zone)
{
    (void)zone;
    time[0] = time[1] = 1;
    return 0;
}

int getpid(void)
{
    return 1;
}

char *getenv(const char *name)
{
    (void)name;
    return NULL;
}

/* Files that a tenant does not have: Lua's library links them for what the program never calls. */
int *__errno_location(void)
{
    static int number;
    return &number;
}

void *stdin, *stdout, *stderr;
void *fopen64(const char *name, const char *mode) { return (void)name, (void)mode, NULL; }
void *freopen64(const char *name, const char *mode, void *file)
{
    return (void)name, (void)mode, (void)file, NULL;
}
int fclose(void *file) { return (void)file, 0; }
int ferror(void *file) { return (void)file, 1; }
int feof(void *file) { return (void)file, 1; }
int getc(void *file) { return (void)file, -1; }
size_t fread(void *to, size_t size, size_t count, void *file) { abort(); }
size_t fwrite(const void *from, size_t size, size_t count, void *file) { abort(); }
int fputs(const char *text, void *file) { abort(); }
int fputc(int byte, void *file) { abort(); }
int fflush(void *file) { abort(); }
int fprintf(void *file, const char *format, ...) { abort(); }
char *strerror(int number) { abort(); }
unsigned long strtoul(const char *text, char **end, int base) { abort(); }
