/* How what unwinds the stack finds the tables of the program: by the headers of its one image. No
   address has a name here. */
#define _GNU_SOURCE
#include <dlfcn.h>
#include <elf.h>
#include <link.h>
#include "features.h"

extern hidden const Elf64_Ehdr __ehdr_start;

int dl_iterate_phdr(int (*call)(struct dl_phdr_info *, size_t, void *), void *data)
{
    struct dl_phdr_info image = {
        .dlpi_name = "/proc/self/exe",
        .dlpi_phdr = (const void *)((const char *)&__ehdr_start + __ehdr_start.e_phoff),
        .dlpi_phnum = __ehdr_start.e_phnum,
        .dlpi_adds = 1,
    };
    return call(&image, sizeof image, data);
}

int dladdr(const void *address, Dl_info *info)
{
    (void)address, (void)info;
    return 0;
}
