/* <stdarg.h> of a tenant. Without registers of floating point a variadic `double` is passed in the
   next general register or on the stack, as an integer of its size; clang 14 still looks for it in
   the save area of the other registers (AAPCS64), so va_arg asks for the integer. */
#ifndef _STDARG_H
#define _STDARG_H

#define __NEED_va_list
#include <bits/alltypes.h>

#define va_start(list, last) __builtin_va_start(list, last)
#define va_end(list) __builtin_va_end(list)
#define va_copy(to, from) __builtin_va_copy(to, from)

#if !defined __clang__
#define va_arg(list, type) __builtin_va_arg(list, type)
#elif defined __cplusplus
extern "C++" {
template <class T> struct __tenant_argument {
    static T next(__builtin_va_list &list) { return __builtin_va_arg(list, T); }
};
template <> struct __tenant_argument<double> {
    static double next(__builtin_va_list &list)
    {
        return __builtin_bit_cast(double, __builtin_va_arg(list, unsigned long));
    }
};
template <> struct __tenant_argument<long double> {
    static long double next(__builtin_va_list &list)
    {
        return __tenant_argument<double>::next(list);
    }
};
}
#define va_arg(list, type) (__tenant_argument<type>::next(list))
#else
static inline double __tenant_double(unsigned long __bits)
{
    union { unsigned long __bits; double __value; } __both = {__bits};
    return __both.__value;
}
#define va_arg(list, type) _Generic(*(type *)0, \
    double: __tenant_double(__builtin_va_arg(list, unsigned long)), \
    long double: __tenant_double(__builtin_va_arg(list, unsigned long)), \
    default: __builtin_va_arg(list, type))
#endif

#endif
