/* Reads numbers with a fraction and writes their mean, standard deviation and a line of least
   squares. Needs `double`, so it is clang's alone. */
#include <math.h>
#include <stdio.h>

int main(void)
{
    double x = 0, y, sum = 0, squares = 0, sum_x = 0, squares_x = 0, products = 0;
    int count = 0;
    while (scanf("%lf", &y) == 1) {
        count++;
        x += 1.0;
        sum += y;
        squares += y * y;
        sum_x += x;
        squares_x += x * x;
        products += x * y;
    }
    if (count < 2)
        return 1;
    double mean = sum / count, variance = (squares - sum * mean) / (count - 1);
    double slope = (count * products - sum_x * sum) / (count * squares_x - sum_x * sum_x);
    printf("%d numbers, mean %.6f, deviation %.6g\n", count, mean, sqrt(variance));
    printf("line: %.4f + %.4f x\n", (sum - slope * sum_x) / count, slope);
    printf("logarithm of the mean %.12g, in hexadecimal %a\n", log(fabs(mean)), mean);
    return 0;
}
