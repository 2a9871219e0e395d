/* The text of helps: words that are broken into lines at blanks. */
#include <string.h>
#include "argp_parts.h"

static void write_blanks(struct argp_page *page, int count)
{
    page->column += count;
    while (count-- > 0)
        putc(' ', page->to);
}

static void write_word(struct argp_page *page)
{
    if (!page->used)
        return;
    write_blanks(page, page->blanks);
    fwrite(page->word, 1, (size_t)page->used, page->to);
    page->column += page->used;
    page->blanks = page->used = page->is_empty = 0;
}

static void begin_line(struct argp_page *page, int margin)
{
    page->column = 0;
    page->blanks = 0;
    page->is_begun = page->is_empty = 1;
    write_blanks(page, margin);
}

static void end_line(struct argp_page *page)
{
    write_word(page);
    write_blanks(page, page->blanks);
    putc('\n', page->to);
    page->column = page->blanks = page->is_begun = 0;
}

/* The blanks in front of the break are left out, those behind it stay. */
static void break_line(struct argp_page *page)
{
    putc('\n', page->to);
    begin_line(page, page->wrap);
}

static void put_blank(struct argp_page *page)
{
    write_word(page);
    if (page->column + page->blanks >= RIGHT_MARGIN)
        break_line(page);
    else
        page->blanks++;
}

/* A word that begins its line stays there, however long it is. */
static void put_byte(struct argp_page *page, char byte)
{
    if (__argp_column(page) >= RIGHT_MARGIN && page->blanks)
        break_line(page);
    if (page->used == WORD)
        write_word(page);
    page->word[page->used++] = byte;
}

hidden void __argp_put(struct argp_page *page, const char *text, size_t size)
{
    for (const char *end = text + size; text < end; text++) {
        if (!page->is_begun)
            begin_line(page, page->left);
        if (*text == '\n')
            end_line(page);
        else if (*text == ' ')
            put_blank(page);
        else
            put_byte(page, *text);
    }
}

hidden void __argp_puts(struct argp_page *page, const char *text)
{
    __argp_put(page, text, strlen(text));
}

/* A word that ends at the last column has room only where the end of its line comes with it. */
hidden void __argp_settle(struct argp_page *page)
{
    if (__argp_column(page) >= RIGHT_MARGIN && page->used && page->blanks)
        break_line(page);
}

hidden void __argp_margins(struct argp_page *page, int left, int wrap)
{
    __argp_settle(page);
    write_word(page);
    page->left = left;
    page->wrap = wrap;
}

hidden int __argp_column(const struct argp_page *page)
{
    return page->column + page->blanks + page->used;
}

hidden void __argp_pad(struct argp_page *page, int column)
{
    while (__argp_column(page) < column)
        __argp_put(page, " ", 1);
}
