/* Names of temporary files. musl takes them from the clock, which is 0 in a tenant, so that the
   second name of a template would be the first again. */

/* Puts the next name where a template has its last six letters. */
char *__randname(char *template)
{
    static unsigned long names;
    unsigned long rest = names++;
    for (int i = 0; i < 6; i++, rest >>= 4)
        template[i] = 'A' + (rest & 15);
    return template;
}
