/* What a program does with files and folders, and what it is told; run natively and as a tenant.
   It begins in a folder with `data/words.txt`, `data/deep/er.txt` and the empty folder `none`. */
#define _GNU_SOURCE
#include <dirent.h>
#include <errno.h>
#include <fcntl.h>
#include <stdio.h>
#include <stdlib.h>
#include <string.h>
#include <sys/stat.h>
#include <unistd.h>

static void tell(const char *what, long result)
{
    if (result < 0)
        printf("%s: errno %d\n", what, errno);
    else
        printf("%s: %ld\n", what, result);
}

#define TELL(call) (errno = 0, tell(#call, (long)(call)))

static void show(const char *name)
{
    struct stat found;
    char line[80];
    FILE *file = fopen(name, "r");
    if (!file || stat(name, &found)) {
        printf("%s: errno %d\n", name, errno);
        return;
    }
    printf("%s, %ld bytes, mode %o:\n", name, (long)found.st_size, found.st_mode & 0170700);
    while (fgets(line, sizeof line, file))
        printf("  %s", line);
    printf("\n%d\n", feof(file));
    TELL(fclose(file));
}

static void list(const char *name)
{
    struct dirent **found;
    int count = scandir(name, &found, NULL, alphasort);
    printf("%s has %d:", name, count);
    for (int i = 0; i < count; i++) {
        printf(" %s%s", found[i]->d_name, found[i]->d_type == DT_DIR ? "/" : "");
        free(found[i]);
    }
    printf("\n");
    if (count >= 0)
        free(found);
}

static void open_and_seek(void)
{
    char bytes[16] = "";
    int file = open("data/words.txt", O_RDONLY);
    TELL(read(file, bytes, 4));
    TELL(lseek(file, -5, SEEK_END));
    TELL(read(file, bytes + 4, 10));
    printf("%s", bytes);
    TELL(lseek(file, 0, SEEK_CUR));
    TELL(lseek(file, -1, SEEK_SET));
    TELL(write(file, "x", 1));
    TELL(pread(file, bytes, 3, 1));
    TELL(pread(file, bytes, 3, -1));
    TELL(pwrite(file, bytes, 3, -1));
    TELL(ftruncate(file, 0));
    TELL(close(file));
    TELL(close(file));
    TELL(read(file, bytes, 1));
    TELL(lseek(999, 0, SEEK_SET));
}

static void refusals(void)
{
    TELL(open("missing", O_RDONLY));
    TELL(open("missing/new", O_WRONLY | O_CREAT, 0644));
    TELL(open("data/words.txt/new", O_WRONLY | O_CREAT, 0644));
    TELL(open("data/words.txt", O_WRONLY | O_CREAT | O_EXCL, 0644));
    TELL(open("data/words.txt", O_RDONLY | O_DIRECTORY));
    TELL(open("data", O_WRONLY));
    TELL(open("", O_RDONLY));
    TELL(access("data/words.txt", R_OK | W_OK));
    TELL(access("data/words.txt", X_OK));
    TELL(access("data", X_OK));
    TELL(access("data/none", F_OK));
    TELL(rmdir("data"));
    TELL(rmdir("data/words.txt"));
    TELL(unlink("data"));
    TELL(unlink("data/none"));
    TELL(mkdir("data", 0755));
    TELL(mkdir("a/b", 0755));
    TELL(rename("missing", "other"));
    TELL(rename("data", "data/deep/data"));
    TELL(rename("data/words.txt", "none"));
    TELL(chdir("data/words.txt"));
    TELL(opendir("missing") ? 0 : -1);
    TELL(truncate("data", 0));
    TELL(readlink("data/words.txt", (char[8]){0}, 8));
}

static void write_some(void)
{
    struct stat found;
    FILE *file = fopen("out.txt", "w+");
    for (int i = 0; i < 2000; i++)
        fprintf(file, "line %d\n", i);
    rewind(file);
    int number = 0, sum = 0;
    while (fscanf(file, "line %d\n", &number) == 1)
        sum += number;
    printf("sum %d at %ld\n", sum, ftell(file));
    TELL(fseek(file, 3, SEEK_SET));
    TELL(fputs("!", file) < 0);
    TELL(fflush(file));
    TELL(fstat(fileno(file), &found));
    printf("%ld bytes\n", (long)found.st_size);
    TELL(ftruncate(fileno(file), 20));
    fclose(file);
    show("out.txt");
    file = fopen("out.txt", "a");
    TELL(fputs("more\n", file) < 0);
    TELL(ftell(file));
    fclose(file);
    file = fopen("data/words.txt", "r+");
    TELL(fseek(file, 30, SEEK_SET));
    TELL(fputs("end\n", file) < 0);
    fclose(file);
    TELL(truncate("data/deep/er.txt", 3));
    show("out.txt");
    show("data/deep/er.txt");
    TELL(stat("data/words.txt", &found));
    printf("%ld bytes\n", (long)found.st_size);
}

static void folders(void)
{
    char name[4096];
    TELL(mkdir("made", 0755));
    TELL(mkdir("made/below", 0755));
    TELL(chdir("made/below"));
    show("../../data/deep/er.txt");
    TELL(creat("here", 0600));
    TELL(chdir(".."));
    TELL(rename("below/here", "there"));
    TELL(rename("../data/deep", "below"));
    list(".");
    list("below");
    list("../data");
    TELL(rename("below", "../deeper"));
    show("../deeper/er.txt");
    show("there");
    TELL(remove("there"));
    list(".");
    TELL(chdir(".."));
    TELL(remove("made"));
    TELL(strcmp(strrchr(getcwd(name, sizeof name), '/'), "/start"));
    TELL(getcwd(name, 2) ? 0 : -1);
    list("none");
    list(".");
}

static void descriptors(void)
{
    int file = open("data/words.txt", O_RDWR | O_APPEND), other = dup(file);
    char bytes[9] = "";
    TELL(read(file, bytes, 4));
    TELL(read(other, bytes + 4, 4));
    printf("%s\n", bytes);
    TELL(fcntl(file, F_GETFL) & (O_ACCMODE | O_APPEND));
    TELL(write(other, "tail\n", 5));
    TELL(unlink("data/words.txt"));
    TELL(access("data/words.txt", F_OK));
    TELL(close(file));
    TELL(lseek(other, 0, SEEK_END));
    TELL(pread(other, bytes, 5, 34));
    printf("%.5s", bytes);
    TELL(dup2(other, 40) - 40);
    TELL(close(other));
    TELL(lseek(40, 0, SEEK_CUR));
    FILE *scratch = tmpfile();
    printf("%d\n", !!scratch);
    if (scratch)
        TELL(fclose(scratch));
    fflush(stdout);
    int kept = dup(1), changed = open("redirected", O_CREAT | O_WRONLY, 0644);
    dup2(changed, 1);
    printf("into the file\n");
    fflush(stdout);
    dup2(kept, 1);
    show("redirected");
    printf("%d\n", freopen("redirected", "r", stdin) == stdin && getchar() == 'i');
}

/* A second file of one template, and the numbers of a folder's files. */
static void temporary_files(void)
{
    char names[2][16] = {"none/fileXXXXXX", "none/fileXXXXXX"};
    struct stat found;
    for (int i = 0; i < 2; i++) {
        int file = mkstemp(names[i]);
        TELL(fcntl(file, F_GETFL) & (O_ACCMODE | O_CREAT | O_EXCL | O_TRUNC));
        TELL(close(file));
    }
    TELL(!strcmp(names[0], names[1]));
    DIR *folder = opendir("none");
    for (struct dirent *entry; folder && (entry = readdir(folder));) {
        if (entry->d_name[0] == 'f')
            TELL(!fstatat(dirfd(folder), entry->d_name, &found, 0)
                 && found.st_ino == entry->d_ino);
    }
    TELL(closedir(folder));
    TELL(unlink(names[0]) | unlink(names[1]));
}

/* What is written to a pipe, also more than once, is what is read from it. */
static void pipes(void)
{
    char bytes[300] = "";
    int ends[2];
    struct stat found;
    TELL(pipe(ends));
    for (int i = 0; i < 3; i++) {
        TELL(write(ends[1], "one two", 7));
        TELL(read(ends[0], bytes, 3));
        TELL(write(ends[1], bytes, 300));
        TELL(read(ends[0], bytes, 300));
        TELL(read(ends[0], bytes + 296, 4));
        printf("%.8s\n", bytes);
    }
    TELL(fstat(ends[0], &found));
    TELL(S_ISFIFO(found.st_mode));
    TELL(lseek(ends[0], 0, SEEK_CUR));
    TELL(pread(ends[0], bytes, 1, 0));
    TELL(read(ends[1], bytes, 1));
    TELL(write(ends[0], bytes, 1));
    FILE *to = fdopen(ends[1], "w"), *from = fdopen(ends[0], "r");
    fprintf(to, "a line\nthe last");
    TELL(fclose(to));
    while (fgets(bytes, sizeof bytes, from))
        printf("%s|", bytes);
    TELL(feof(from));
    TELL(fclose(from));
    TELL(pipe2(ends, O_CLOEXEC));
    TELL(close(ends[1]));
    TELL(read(ends[0], bytes, 1));
    TELL(close(ends[0]));
}

int main(void)
{
    list(".");
    list("data");
    show("data/words.txt");
    show("./data/../data//deep/er.txt");
    open_and_seek();
    refusals();
    write_some();
    folders();
    temporary_files();
    pipes();
    descriptors();
    return 0;
}
