/* Read in front of the files of musl that make descriptors or take names: whatever links one of
   them links ../src/files.c too. */
__asm__(".globl __tenant_file_call");
