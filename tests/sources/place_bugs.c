/* Wrong uses of pointers to variables, one a build: BUG says which. What is volatile is so that no
   compiler knows the index, or leaves the access out. */
#include "tenant.h"

static volatile int one = 1;
static volatile int sink;

__attribute__((noinline)) static void fill(char *to, int count)
{
    for (int i = 0; i < count; i++)
        ((volatile char *)to)[i] = 'x';
}

__attribute__((noinline)) static void copy_text(char *to, const char *from)
{
    while ((*to++ = *from++))
        ;
}

__attribute__((noinline)) static int sum_of(const int *all, int count)
{
    int sum = 0;
    for (int i = 0; i < count; i++)
        sum += ((const volatile int *)all)[i];
    return sum;
}

__attribute__((noinline)) static void set_second(long *pair)
{
    ((volatile long *)pair)[1] = 4;
}

static char text_of_image[16] = "fifteen letters";
static int numbers_of_image[4] = {1, 2, 3, 4};
static int more_of_image[4] = {5, 6, 7, 8};

struct record {
    long key;
    char name[8];
};

static int *volatile kept;

__attribute__((noinline)) static void keep_local(void)
{
    int local[4] = {one, 2, 3, 4};
    kept = local;
    sink = kept[1];
}

__attribute__((noinline)) static void keep_deep_local(int depth)
{
    if (depth > 0)
        keep_deep_local(depth - 1);
    else
        keep_local();
    sink = depth;
}

__attribute__((noinline)) static long sum_many(long a, long b, long c, long d, long e, long f,
                                               long g, long h, long i, long j, long k, long l,
                                               long m, long n)
{
    char small[3], large[400];
    fill(small, 3);
    fill(large, 400 + one);
    return a + b + c + d + e + f + g + h + i + j + k + l + m + n + large[one] + small[one];
}

static int bug(void)
{
#if BUG == 1 /* a write 1 past an array of 16 bytes of the stack, by an index */
    volatile char buffer[16];
    fill((char *)buffer, 16);
    buffer[15 + one] = 1;
    return buffer[0];
#elif BUG == 2 /* a read of an element past an array of the stack */
    volatile int numbers[4];
    for (int i = 0; i < 4; i++)
        numbers[i] = i;
    return numbers[4 * one];
#elif BUG == 3 /* a write 1 in front of an array of the stack */
    volatile char buffer[40];
    fill((char *)buffer, 40);
    buffer[-one] = 1;
    return buffer[1];
#elif BUG == 4 /* 24 bytes set in 16 of the stack, by a function */
    char buffer[16];
    fill(buffer, 24 * one);
    return buffer[one];
#elif BUG == 5 /* a text of 20 bytes, copied to 16 of the stack */
    char buffer[16];
    copy_text(buffer, "nineteen characters");
    return buffer[one];
#elif BUG == 6 /* one element too many of an array of the stack, by a function */
    int numbers[6];
    for (int i = 0; i < 6; i++)
        ((volatile int *)numbers)[i] = i;
    return sum_of(numbers, 6 + one);
#elif BUG == 7 /* a read of an element past an array of the image */
    return ((volatile int *)more_of_image)[4 * one] + numbers_of_image[one];
#elif BUG == 8 /* 17 bytes set in 16 of the image, by a function */
    fill(text_of_image, 16 + one);
    return text_of_image[one];
#elif BUG == 9 /* a text of 16 letters, copied to 16 bytes of the image */
    copy_text(text_of_image, "sixteen letters!");
    return text_of_image[one];
#elif BUG == 10 /* one element too many of a static array, by a function */
    static int table[8] = {1, 1, 2, 3, 5, 8, 13, 21};
    return sum_of(table, 8 + one);
#elif BUG == 11 /* a variable that is read after its function has returned */
    keep_local();
    return *kept;
#elif BUG == 12 /* a variable that is written after its function has returned */
    keep_deep_local(3);
    ((volatile int *)kept)[2] = 1;
    return 0;
#elif BUG == 13 /* the last array of a structure of the stack, passed over its end */
    struct record record = {one, "seven"};
    fill(record.name, 9);
    return record.name[one];
#elif BUG == 14 /* 40 bytes read into 32 of the stack, by a service */
    char buffer[32];
    sink = (int)tenant_read(buffer, 40);
    return buffer[one];
#elif BUG == 15 /* a variable of the stack is freed */
    int number = one;
    tenant_free(&number);
    return number;
#elif BUG == 16 /* a variable of the image is freed */
    tenant_free(numbers_of_image);
    return 0;
#elif BUG == 17 /* a pointer into an array of the stack gets another size */
    char buffer[48];
    fill(buffer, 48);
    return tenant_realloc(buffer + 16, 100) == 0;
#elif BUG == 18 /* a row past an array of rows of the image */
    static int rows[3][4];
    return sum_of(rows[0], 13);
#elif BUG == 19 /* one long, taken for two */
    long number = one;
    set_second(&number);
    return (int)number;
#elif BUG == 20 /* 24 bytes written out of 16 of the image, by a service */
    tenant_write(text_of_image, 24);
    return 0;
#elif BUG == 21 /* 401 bytes set in 400 of a stack with arguments, by a function */
    return (int)sum_many(1, 2, 3, 4, 5, 6, 7, 8, 9, 10, 11, 12, 13, one);
#elif BUG == 22 /* a variable of a block that is read after the block */
    int *all;
    {
        int block[4] = {one, 2, 3, 4};
        all = block;
        sink = all[1];
    }
    return all[one];
#elif BUG == 23 /* a variable of a loop that a function writes after the loop */
    for (int i = 0; i < 3; i++) {
        int turn[4] = {i, one};
        kept = turn;
        sink = kept[1];
    }
    set_second((long *)kept);
    return 0;
#endif
}

int main(void)
{
    int status = bug();
    sink = status;
    return 0;
}
