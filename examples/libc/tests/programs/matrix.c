/* Reads two square matrices of integers, writes their product and the determinant of each (by
   Bareiss's algorithm, in which no division leaves a remainder). */
#include <stdio.h>
#include <stdlib.h>

typedef long long entry;

static entry **make_matrix(int size)
{
    entry **rows = malloc((size_t)size * sizeof *rows);
    for (int i = 0; i < size; i++)
        rows[i] = calloc((size_t)size, sizeof **rows);
    return rows;
}

static void free_matrix(entry **rows, int size)
{
    for (int i = 0; i < size; i++)
        free(rows[i]);
    free(rows);
}

static entry **read_matrix(int size)
{
    entry **rows = make_matrix(size);
    for (int i = 0; i < size; i++)
        for (int j = 0; j < size; j++)
            if (scanf("%lld", &rows[i][j]) != 1) {
                fprintf(stdout, "row %d, column %d: no number\n", i + 1, j + 1);
                exit(1);
            }
    return rows;
}

static entry **multiply(entry **left, entry **right, int size)
{
    entry **product = make_matrix(size);
    for (int i = 0; i < size; i++)
        for (int j = 0; j < size; j++)
            for (int k = 0; k < size; k++)
                product[i][j] += left[i][k] * right[k][j];
    return product;
}

/* Exchanges row `k` with a later one that has an entry in its column; whether there is one. */
static int pivot(entry **rows, int size, int k, int *sign)
{
    for (int i = k; i < size; i++)
        if (rows[i][k] != 0) {
            entry *row = rows[i];
            rows[i] = rows[k];
            rows[k] = row;
            *sign = i == k ? *sign : -*sign;
            return 1;
        }
    return 0;
}

/* Changes the matrix. */
static entry determinant(entry **rows, int size)
{
    entry before = 1;
    int sign = 1;
    for (int k = 0; k + 1 < size; k++) {
        if (!pivot(rows, size, k, &sign))
            return 0;
        for (int i = k + 1; i < size; i++)
            for (int j = k + 1; j < size; j++)
                rows[i][j] = (rows[i][j] * rows[k][k] - rows[i][k] * rows[k][j]) / before;
        before = rows[k][k];
    }
    return sign * rows[size - 1][size - 1];
}

int main(void)
{
    int size;
    if (scanf("%d", &size) != 1 || size < 1 || size > 100)
        return 1;
    entry **left = read_matrix(size), **right = read_matrix(size);
    entry **product = multiply(left, right, size);
    for (int i = 0; i < size; i++)
        for (int j = 0; j < size; j++)
            printf("%10lld%c", product[i][j], j + 1 < size ? ' ' : '\n');
    entry a = determinant(left, size), b = determinant(right, size);
    entry c = determinant(product, size);
    printf("%lld * %lld = %lld\n", a, b, c);
    free_matrix(left, size);
    free_matrix(right, size);
    free_matrix(product, size);
    return c == a * b ? 0 : 2;
}
