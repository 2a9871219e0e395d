/* Messages of errors, as GNU's C library has them. */
#ifndef _ERROR_H
#define _ERROR_H

#ifdef __cplusplus
extern "C" {
#endif

/* Writes "PROGRAM: MESSAGE: TEXT OF THE NUMBER" to standard error, without the text where the
   number is 0; then exits with the status, if it is not 0. */
void error(int status, int number, const char *form, ...)
    __attribute__((__format__(__printf__, 3, 4)));
void error_at_line(int status, int number, const char *file, unsigned line, const char *form, ...)
    __attribute__((__format__(__printf__, 5, 6)));

/* What writes the program's name, if it is not null; how many messages were written; whether a
   second message of the same line is left out. */
extern void (*error_print_progname)(void);
extern unsigned error_message_count;
extern int error_one_per_line;

#ifdef __cplusplus
}
#endif
#endif
