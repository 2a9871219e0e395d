/* Numbers with a fraction, for clang: arithmetic, conversions, variadic arguments, text, math.h. */
#include <math.h>
#include <stdarg.h>
#include <stdio.h>
#include <stdlib.h>

struct point { double x, y; };

static double mean(int count, ...)
{
    va_list list;
    double total = 0;
    va_start(list, count);
    for (int i = 0; i < count; i++)
        total += va_arg(list, double);
    va_end(list);
    return total / count;
}

static struct point scale(struct point point, float factor)
{
    return (struct point){point.x * factor, point.y / factor};
}

int main(void)
{
    struct point point = scale((struct point){1.25, -7.0}, 3.0f);
    double value;
    int whole;
    printf("%.17g %.17g %d\n", point.x, point.y, (int)(point.x * 1000));
    printf("%g %g\n", mean(3, 1.0, 2.0, 4.5), mean(9, 1., 2., 3., 4., 5., 6., 7., 8., 9.));
    printf("%.10f %.12g %e %a\n", sqrt(2.0), sin(1.0), exp(-20.5), 0.1);
    printf("%.15g %.15g %.3f\n", pow(1.0001, 10000), log(3), fmod(-7.5, 2));
    if (sscanf("6.02214e23 -0.5e-3 17", "%lf %lg %d", &value, &point.x, &whole) == 3)
        printf("%g %g %d %.20g\n", value, point.x, whole, strtod("0.3", NULL));
    printf("%d %d %d\n", !!isnan(NAN), !!isinf(-1.0 / 0.0), 0.1 + 0.2 == 0.3);
    printf("%lld %llu\n", llround(2.5e15), (unsigned long long)1.8e19);
    printf("%d %g %g %.9g\n", 12, 1e100, (double)-3LL, (double)(1.0f / 3));
    printf("%g %g %g %ld\n", floor(-2.5), ceil(2.1), fabs(-0.0), lrint(3.5));
    return 0;
}
