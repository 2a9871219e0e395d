/* Services, and exit statuses. The first letter of the input says what it does. */
#include "tenant.h"

#define APART __attribute__((noinline))

static char line[64];

static void put_number(uint64_t number)
{
    size_t at = sizeof line;
    line[--at] = '\n';
    do {
        line[--at] = (char)('0' + number % 10);
        number /= 10;
    } while (number);
    tenant_write(line + at, sizeof line - at);
}

/* The input's number behind the letter. */
static int read_number(void)
{
    int number = 0;
    char digit;
    while (tenant_read(&digit, 1) == 1 && digit >= '0' && digit <= '9')
        number = number * 10 + digit - '0';
    return number;
}

/* 30 bytes in three pieces; returns how many were taken. */
APART static int write_pieces(void)
{
    static const char piece[] = "ten bytes\n";
    size_t taken = 0;
    for (int i = 0; i < 3; i++)
        taken += tenant_write(piece, 10);
    return (int)taken;
}

APART static int copy_input(void)
{
    char piece[7];
    size_t count;
    while ((count = tenant_read(piece, sizeof piece)) != 0)
        tenant_write(piece, count);
    return 0;
}

/* What depends on slices and on the reservation. */
APART static int ask(void)
{
    put_number(tenant_steps_left());
    tenant_yield();
    put_number(tenant_steps_left());
    put_number(tenant_pages_left());
    char *chunk = tenant_malloc(5000);
    put_number(tenant_pages_left());
    tenant_free(chunk);
    return tenant_call(200, 1, 2) == -1 ? 0 : 1;
}

/* An access by another tag, and a service behind it. */
APART static int access_and_ask(void)
{
    volatile char *chunk = tenant_malloc(40);
    tenant_malloc(50);
    chunk[2] = 'a';
    chunk[44] = 'b';
    chunk[64] = 'c';
    for (int i = 0; i < 5; i++)
        chunk[i] = 'd';
    tenant_write((const void *)chunk, 3);
    return 0;
}

APART static _Noreturn void wait(void)
{
    volatile unsigned count = 0;
    for (;;)
        count++;
}

int main(void)
{
    char act = 0;
    tenant_read(&act, 1);
    switch (act) {
    case 'a':
        return access_and_ask();
    case 'c':
        return copy_input();
    case 'e':
        return read_number();
    case 'o':
        return write_pieces();
    case 's':
        return ask();
    case 'w':
        wait();
    }
    return 0;
}
