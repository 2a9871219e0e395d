/*
 * Tells why a tenant ended: why IMAGE [OPTION..], with options of mte_run, and what it reads on
 * standard input.
 */
#include <stdio.h>
#include <stdlib.h>
#include <string.h>
#include <tombolopan_explain.h>

/* All bytes of a file; there is one more, so that it is never empty. */
static uint8_t *read_all(FILE *file, size_t *length) {
    size_t room = 1 << 16, count;
    uint8_t *bytes = malloc(room);
    *length = 0;
    while (bytes != NULL && (count = fread(bytes + *length, 1, room - *length, file)) > 0) {
        *length += count;
        if (*length == room) {
            uint8_t *more = realloc(bytes, room *= 2);
            if (more == NULL) free(bytes);
            bytes = more;
        }
    }
    return bytes;
}

/* The words behind the image, one a line. */
static char *join(char **words, size_t *length) {
    size_t room = 1;
    for (char **word = words; *word != NULL; word++) room += strlen(*word) + 1;
    char *text = calloc(room, 1);
    for (char **word = words; text != NULL && *word != NULL; word++) {
        strcat(text, *word);
        strcat(text, "\n");
    }
    *length = text != NULL ? strlen(text) : 0;
    return text;
}

int main(int count, char **words) {
    FILE *file = count > 1 ? fopen(words[1], "rb") : NULL;
    if (file == NULL) {
        fprintf(stderr, "why: an image is wanted, and options\n");
        return 2;
    }
    tb_question question = {.name = words[1], .name_length = strlen(words[1])};
    uint8_t *image = read_all(file, &question.image_length);
    uint8_t *input = read_all(stdin, &question.input_length);
    char *options = join(words + 2, &question.options_length);
    fclose(file);
    uint8_t *answer = malloc(1 << 20);
    tb_explain_end end = {.code = TB_OUT_OF_MEMORY, .status = 4};
    if (image != NULL && input != NULL && options != NULL && answer != NULL) {
        question.image = image;
        question.input = input;
        question.options = options;
        tb_explain(&question, answer, 1 << 20, &end);
    }
    size_t length = end.length < 1 << 20 ? end.length : 1 << 20;
    if (length > 0) fwrite(answer, 1, length, stdout);
    free(answer);
    free(options);
    free(input);
    free(image);
    return end.status;
}
