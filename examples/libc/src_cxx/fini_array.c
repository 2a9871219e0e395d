/* An entry of .fini_array, which does nothing. Where a program has none, the linker puts the
   symbols __fini_array_start and __fini_array_end, which have no size, at the first function, and
   the addresses behind it are named by them. tenant-c++ links this file by its symbol. */
char __tenant_fini_array;

__attribute__((destructor)) static void end(void)
{
}
