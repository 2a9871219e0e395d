/* Tells a checked run (mte_run --check) of memory that a program hands out itself: arenas, pools,
   free lists. What the run checks of it docs/CHECKING.md says.

   Each macro is one HINT instruction, of those that no extension of the architecture has (Arm ARM
   DDI 0487, C6.2, HINT), and three moves: the pointer is in x0, the bytes are in x1. A run that is
   not checked does nothing for it. A range of more than 1,048,576 bytes is left out. Each is for C
   and C++, by gcc and clang; for another processor than AArch64 it is nothing. */
#ifndef TENANT_CHECK_H
#define TENANT_CHECK_H

#ifdef __aarch64__
#define TENANT_CHECK_(hint, pointer, size) \
    (__extension__({ \
        void *check_pointer_ = (void *)(pointer); \
        unsigned long check_size_ = (size); \
        __asm__ volatile("mov x0, %0\n\tmov x1, %1\n\thint #" #hint "\n\tmov %0, x0" \
                         : "+r"(check_pointer_) \
                         : "r"(check_size_) \
                         : "x0", "x1", "memory"); \
        check_pointer_; \
    }))
#else
#define TENANT_CHECK_(hint, pointer, size) ((void)(size), (void *)(pointer))
#endif

/* The bytes from pointer on are a chunk of their own, which has no value yet. Returns the pointer
   to it, by which it is to be used: an access by that outside the chunk is wrong. Where a chunk
   begins at pointer already, it gets another size, and keeps its bytes. */
#define CHECK_CHUNK(pointer, size) TENANT_CHECK_(112, pointer, size)

/* Nothing may access the bytes from pointer on. The chunks that begin there are given back: any use
   of a pointer to one is wrong. */
#define CHECK_NO_ACCESS(pointer, size) ((void)TENANT_CHECK_(113, pointer, size))

/* The bytes from pointer on may be accessed, and have a value. */
#define CHECK_DEFINED(pointer, size) ((void)TENANT_CHECK_(114, pointer, size))

#endif
