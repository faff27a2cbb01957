/* Prints the paths that a pattern leads to: find PATTERN. Exits with 0 if there was one and each directory could be
 * listed, with 1 if not, and with 2 after a fault. */
#define _DEFAULT_SOURCE
#include <dirent.h>
#include <errno.h>
#include <stdio.h>
#include <string.h>
#include <sys/stat.h>

#include "cadmiumdove.h"

static char path[65536];

/* What the path leads to. */
static uint32_t look(void) {
    struct stat at;
    if (stat(path, &at) == 0)
        return S_ISDIR(at.st_mode) ? CADMIUMDOVE_DIRECTORY : CADMIUMDOVE_OTHER;
    return lstat(path, &at) == 0 ? CADMIUMDOVE_OTHER : CADMIUMDOVE_MISSING;
}

/* Whether an entry of the directory at the path is a directory, or a symbolic link to one. */
static bool is_dir(DIR *directory, const struct dirent *entry) {
    struct stat at;
    if (entry->d_type != DT_LNK && entry->d_type != DT_UNKNOWN)
        return entry->d_type == DT_DIR;
    return fstatat(dirfd(directory), entry->d_name, &at, 0) == 0 && S_ISDIR(at.st_mode);
}

/* Answers with the entries of the directory at the path. */
static void list(struct cadmiumdove_walk *walk) {
    DIR *directory = opendir(path);
    uint32_t answer = CADMIUMDOVE_DONE;
    struct dirent *entry;
    if (directory == NULL) {
        cadmiumdove_walk_unread(walk, errno);
        return;
    }
    while (answer == CADMIUMDOVE_DONE && (errno = 0, entry = readdir(directory)) != NULL) {
        answer = cadmiumdove_walk_entry(walk, entry->d_name, strlen(entry->d_name), is_dir(directory, entry));
        if (answer == CADMIUMDOVE_NO_NAME) /* `.` and `..` */
            answer = CADMIUMDOVE_DONE;
    }
    if (answer == CADMIUMDOVE_NOT_UTF8)
        cadmiumdove_walk_unread(walk, EILSEQ);
    else if (answer == CADMIUMDOVE_OUT_OF_MEMORY)
        cadmiumdove_walk_unread(walk, ENOMEM);
    else if (errno != 0)
        cadmiumdove_walk_unread(walk, errno);
    else
        cadmiumdove_walk_listed(walk);
    closedir(directory);
}

int main(int count, char **words) {
    struct cadmiumdove_walk walk = {0};
    struct cadmiumdove_fault fault;
    int status = 1;
    bool failed = false;
    size_t length;
    if (count != 2)
        return 2;
    switch (cadmiumdove_walk_new(&walk, words[1], strlen(words[1]), 0, UINT64_MAX, &fault)) {
    case CADMIUMDOVE_DONE: break;
    case CADMIUMDOVE_SYNTAX_FAULT:
        fprintf(stderr, "%zu: %s\n", fault.place, cadmiumdove_message_text(fault.message));
        return 2;
    case CADMIUMDOVE_NOT_UTF8: fputs("the pattern is not UTF-8\n", stderr); return 2;
    default: fputs("out of memory\n", stderr); return 2;
    }
    for (uint32_t step; (step = cadmiumdove_walk_next(&walk)) != CADMIUMDOVE_END;) {
        if (cadmiumdove_walk_path(&walk, path, sizeof path - 1, &length) != CADMIUMDOVE_DONE)
            return 2;
        path[length] = 0;
        switch (step) {
        case CADMIUMDOVE_LOOK: cadmiumdove_walk_looked(&walk, look()); break;
        case CADMIUMDOVE_LIST:
        case CADMIUMDOVE_LIST_NAMES: list(&walk); break;
        case CADMIUMDOVE_PATH: puts(path), status = 0; break;
        default:
            fprintf(stderr, "%s: %s\n", path, step == CADMIUMDOVE_UNREAD ? "cannot be listed" : "out of memory");
            failed = true;
        }
    }
    cadmiumdove_walk_free(&walk);
    return failed ? 1 : status;
}
