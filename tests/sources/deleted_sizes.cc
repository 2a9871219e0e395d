// Objects of C++ that compilers delete by their sizes, one a build: CASE says which. Those above 10
// are deleted as what they are not.
#define _Noreturn
extern "C" {
#include "tenant.h"
}

static volatile int one = 1;

#define APART __attribute__((noinline))

APART void *operator new(size_t size) { return tenant_malloc(size); }
APART void *operator new[](size_t size) { return tenant_malloc(size); }
APART void operator delete(void *chunk) noexcept { tenant_free(chunk); }
APART void operator delete[](void *chunk) noexcept { tenant_free(chunk); }
APART void operator delete(void *chunk, size_t size) noexcept
{
    one = size != 0;
    ::operator delete(chunk);
}
APART void operator delete[](void *chunk, size_t size) noexcept
{
    one = size != 0;
    ::operator delete[](chunk);
}

struct Plain {
    long first;
    ~Plain() { one = 1; }
};

struct Larger : Plain {
    long more[4];
};

struct Named {
    long first = 1;
    virtual ~Named() { one = 1; }
};

struct Longer : Named {
    long more[4];
};

struct Empty {
};

struct Buffer {
    int count;
    char bytes[4];
};

template <class T> APART void remove(T *object) { delete object; }
template <class T> APART void remove_all(T *objects) { delete[] objects; }

extern "C" int main()
{
#if CASE == 1 // objects by their own types
    remove(new Plain);
    remove(new Larger);
    remove(new Longer);
    remove(new long);
    remove(new Empty);
#elif CASE == 2 // an object by its base, whose destructor is virtual
    remove<Named>(new Longer);
#elif CASE == 3 // arrays, with and without a number of elements in front
    remove_all(new Plain[3 * one]);
    remove_all(new Longer[2 * one]);
    remove_all(new long[5 * one]);
#elif CASE == 4 // bytes without a type
    ::operator delete(static_cast<void *>(new long));
#elif CASE == 5 // an object that was made with more bytes, as bytes
    Buffer *buffer = static_cast<Buffer *>(::operator new(sizeof(Buffer) + 40));
    ::operator delete(buffer);
#elif CASE == 6 // none
    remove(static_cast<Named *>(nullptr));
#elif CASE == 11 // an object by its base, whose destructor is not virtual
    remove<Plain>(new Larger);
#elif CASE == 12 // an object that was made with more bytes, as one of its type
    remove(static_cast<Buffer *>(::operator new(sizeof(Buffer) + 40)));
#elif CASE == 13 // a long as an int
    remove(reinterpret_cast<int *>(new long));
#endif
    return 0;
}
