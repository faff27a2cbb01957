/* The system calls of a walk alone, with nothing between them: each directory is opened by its path, read and closed, and each
   name is looked up by its path.

   usage: calls DEPTH [names]    walks the current directory, DEPTH levels deep, and prints how many entries it met; with
                                 `names` it looks up none of the last level */
#define _GNU_SOURCE
#include <dirent.h>
#include <fcntl.h>
#include <stdio.h>
#include <stdlib.h>
#include <string.h>
#include <sys/stat.h>

static char path[2 * 4096] = ".";
static unsigned long entries;

static int is_dir(void) {
    struct statx found;
    return statx(AT_FDCWD, path, 0, STATX_BASIC_STATS | STATX_BTIME, &found) == 0 && S_ISDIR(found.stx_mode);
}

/* walks the directory whose path has the length END */
static void walk(size_t end, unsigned long depth, int names) {
    char *below = NULL;
    size_t size = 0;
    DIR *dir = opendir(path);
    FILE *found = open_memstream(&below, &size);
    if (!dir || !found)
        exit(2);
    for (struct dirent *entry; (entry = readdir(dir));) {
        if (!strcmp(entry->d_name, ".") || !strcmp(entry->d_name, ".."))
            continue;
        entries++;
        snprintf(path + end, sizeof path - end, "/%s", entry->d_name);
        if (!(names && depth == 1) && is_dir())
            fwrite(entry->d_name, 1, strlen(entry->d_name) + 1, found);
    }
    closedir(dir);
    fclose(found);
    for (char *name = below; depth > 1 && name < below + size; name += strlen(name) + 1)
        walk(end + snprintf(path + end, sizeof path - end, "/%s", name), depth - 1, names);
    free(below);
}

int main(int count, char **words) {
    if (count < 2)
        return 2;
    is_dir();
    walk(strlen(path), strtoul(words[1], NULL, 10), count == 3);
    printf("%lu\n", entries);
    return 0;
}
