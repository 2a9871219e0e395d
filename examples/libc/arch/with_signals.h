/* Read in front of the files of musl that set what is to be done at a signal, or which are blocked:
   whatever links one of them links ../src/signals.c too. */
__asm__(".globl __tenant_signal_call");
