/* Unix shell patterns, for matching texts and walking trees on Linux on x86-64-v2. Every function of the library is
 * proved (crates/glob_c).
 *
 *     #include <stdio.h>
 *     #include <string.h>
 *     #include "cadmiumdove.h"
 *
 *     int main(void) {
 *         const char *text = "*.rs", *path = "main.rs";
 *         struct cadmiumdove_pattern pattern = {0};
 *         struct cadmiumdove_fault fault;
 *         if (cadmiumdove_pattern_new(&pattern, text, strlen(text), &fault) != CADMIUMDOVE_DONE)
 *             return 1;
 *         if (cadmiumdove_pattern_matches(&pattern, path, strlen(path), 0) == CADMIUMDOVE_YES)
 *             puts(path);
 *         cadmiumdove_pattern_free(&pattern);
 *     }
 *
 * bin/c_library makes crates/glob_c/out/libcadmiumdove.a:
 *
 *     cc -Iinclude main.c crates/glob_c/out/libcadmiumdove.a
 *
 * With a release, and PKG_CONFIG_PATH its lib/pkgconfig:
 *
 *     cc main.c $(pkg-config --cflags --libs cadmiumdove)
 *
 * What is proved about a call holds if its caller follows these rules, which nothing checks:
 *
 * - No pointer is null, even with a length of 0. Its memory is valid during the call, and no other call or thread
 *   writes to it meanwhile. Memory that a call writes to overlaps none of its other arguments.
 * - A handle is `{0}` before its first call, and only calls write to it. It may be moved, but not copied.
 * - Several threads may match with the same pattern at once. A call that takes a handle without `const` needs exclusive
 *   access: a lock, or the start or join of a thread, orders it with all other calls on that handle.
 * - No call is made from a signal handler, or in the forked child of a process with threads.
 * - malloc, realloc and free come from the same allocator.
 */
#ifndef CADMIUMDOVE_H
#define CADMIUMDOVE_H

#include <stdbool.h>
#include <stddef.h>
#include <stdint.h>

#define CADMIUMDOVE_VERSION_MAJOR 0
#define CADMIUMDOVE_VERSION_MINOR 4
#define CADMIUMDOVE_VERSION_PATCH 0
#define CADMIUMDOVE_VERSION "0.4.0"

#ifdef __cplusplus
extern "C" {
#endif

/* A handle of a pattern. `{0}` is an empty one. */
struct cadmiumdove_pattern {
    void *at;
    bool full;
};

/* What calls return. */
enum cadmiumdove_answer {
    CADMIUMDOVE_DONE = 0,
    CADMIUMDOVE_SYNTAX_FAULT = 1,  /* the text is not a valid pattern */
    CADMIUMDOVE_OUT_OF_MEMORY = 2, /* an allocation failed */
    CADMIUMDOVE_NOT_UTF8 = 3,      /* the bytes are not UTF-8 */
    CADMIUMDOVE_TOO_SHORT = 4,     /* the buffer is too short */
    CADMIUMDOVE_UNKNOWN_FLAG = 5,  /* there is no such flag */
    CADMIUMDOVE_IN_USE = 6,        /* the handle is already full */
    CADMIUMDOVE_EMPTY = 7          /* the handle is empty, or was freed */
};

/* What a match returns, besides OUT_OF_MEMORY, NOT_UTF8, UNKNOWN_FLAG and EMPTY. */
enum cadmiumdove_match {
    CADMIUMDOVE_NO = 0,
    CADMIUMDOVE_YES = 1
};

/* The flags of a match, to be added up. 0 means case-sensitive, without the two rules. */
enum cadmiumdove_flag {
    CADMIUMDOVE_CASE_INSENSITIVE = 1,   /* ASCII letters match in either case */
    CADMIUMDOVE_LITERAL_SEPARATOR = 2,  /* `/` is matched only by a `/` outside brackets, or by `**` */
    CADMIUMDOVE_LITERAL_LEADING_DOT = 4 /* a `.` that begins a component is matched only by a `.` outside brackets */
};

/* Where a text is not a valid pattern, and why. */
struct cadmiumdove_fault {
    size_t place; /* in characters from 0 */
    uint32_t message;
};

/* The values of `message`. */
enum cadmiumdove_message {
    CADMIUMDOVE_WILDCARDS = 0,
    CADMIUMDOVE_RECURSIVE = 1,
    CADMIUMDOVE_RANGE = 2
};

/* The text of a message. */
static inline const char *cadmiumdove_message_text(uint32_t message) {
    return message == CADMIUMDOVE_WILDCARDS ? "wildcards are either regular `*` or recursive `**`"
        : message == CADMIUMDOVE_RECURSIVE  ? "recursive wildcards must form a single path component"
                                            : "invalid range pattern";
}

/* Parses `length` bytes as a pattern, and puts it into the handle. Returns DONE; SYNTAX_FAULT, with the first fault in
 * `fault`; OUT_OF_MEMORY; NOT_UTF8; or IN_USE if the handle already has a pattern. Unless DONE is returned, `pattern`
 * is unchanged; `fault` changes only if SYNTAX_FAULT is returned. */
uint32_t cadmiumdove_pattern_new(struct cadmiumdove_pattern *pattern, const char *text, size_t length,
                                 struct cadmiumdove_fault *fault);

/* The call behind the next two. `at` is the pointer of a handle that has a pattern. With the flag 8, the caller
 * promises that the text is UTF-8. */
uint32_t cadmiumdove_pattern_matches_at(const void *at, const char *text, size_t length, uint32_t flags);

/* Whether the pattern matches the whole text under the options in `flags`: YES, NO, EMPTY, UNKNOWN_FLAG, NOT_UTF8 or
 * OUT_OF_MEMORY. A pattern of at most 63 tokens never returns OUT_OF_MEMORY. */
static inline uint32_t cadmiumdove_pattern_matches(const struct cadmiumdove_pattern *pattern, const char *text,
                                                   size_t length, uint32_t flags) {
    if (!pattern->full)
        return CADMIUMDOVE_EMPTY;
    return flags > 7 ? (uint32_t)CADMIUMDOVE_UNKNOWN_FLAG
                     : cadmiumdove_pattern_matches_at(pattern->at, text, length, flags);
}

/* The same without checking that the text is UTF-8, which saves a third of the time for a short text.
 * The caller promises that the text is UTF-8. */
static inline uint32_t cadmiumdove_pattern_matches_unchecked(const struct cadmiumdove_pattern *pattern,
                                                             const char *text, size_t length, uint32_t flags) {
    if (!pattern->full)
        return CADMIUMDOVE_EMPTY;
    return flags > 7 ? (uint32_t)CADMIUMDOVE_UNKNOWN_FLAG
                     : cadmiumdove_pattern_matches_at(pattern->at, text, length, flags | 8);
}

/* Writes the pattern that matches the text literally to `out`, which has room for `room` bytes, and its length to
 * `needed`. It is not zero-terminated. Returns DONE; OUT_OF_MEMORY; NOT_UTF8; or TOO_SHORT, and then `needed` is the
 * room required. `out` changes only if DONE is returned. Three times `length` is always enough, since a character
 * becomes at most three.
 * The caller promises that `out`, `needed` and the text do not overlap. */
uint32_t cadmiumdove_pattern_escape(const char *text, size_t length, char *out, size_t room, size_t *needed);

/* Frees the handle's pattern, if there is one, and leaves the handle empty. */
void cadmiumdove_pattern_free(struct cadmiumdove_pattern *pattern);

/* A handle of a walk. `{0}` is an empty one. */
struct cadmiumdove_walk {
    void *at;
    bool full;
};

/* The steps of a walk. */
enum cadmiumdove_step {
    CADMIUMDOVE_LOOK = 0,       /* it asks what the path refers to: answer with cadmiumdove_walk_looked */
    CADMIUMDOVE_LIST = 1,       /* it asks for the entries of the directory at the path */
    CADMIUMDOVE_LIST_NAMES = 2, /* the same, but `is_dir` may be false for every entry */
    CADMIUMDOVE_PATH = 3,       /* it found the path */
    CADMIUMDOVE_UNREAD = 4,     /* the directory at the path could not be listed; the walk goes on */
    CADMIUMDOVE_LIMIT = 5,      /* the limit is reached; only CADMIUMDOVE_END follows */
    CADMIUMDOVE_MEMORY = 6,     /* an allocation failed; only CADMIUMDOVE_END follows */
    CADMIUMDOVE_END = 8         /* the walk is over */
};

/* What cadmiumdove_walk_looked says about a path. A symbolic link counts as its target, or as OTHER if it has none. */
enum cadmiumdove_look {
    CADMIUMDOVE_DIRECTORY = 0,
    CADMIUMDOVE_OTHER = 1,
    CADMIUMDOVE_MISSING = 2
};

/* What calls that answer a walk return, besides DONE, OUT_OF_MEMORY, NOT_UTF8 and EMPTY. */
enum cadmiumdove_refusal {
    CADMIUMDOVE_NOT_ASKED = 9, /* the walk did not ask that; nothing has changed */
    CADMIUMDOVE_NO_NAME = 10   /* empty, `.`, `..`, or with `/` or NUL; nothing has changed */
};

/* Begins a walk for a pattern, and puts it into the handle. The walk starts at the root if the pattern begins with `/`,
 * and otherwise at the current directory. It does at most `limit` units of work, one for each question and each entry,
 * but keeps all entries of a listing before it counts them. Returns what cadmiumdove_pattern_new does, or UNKNOWN_FLAG.
 * Each component must also be a pattern by itself; if only that fails, the place of the fault counts from the start of
 * the component. A walk reads no files: the caller answers its questions, from a file system or an archive for example.
 *
 *     while ((step = cadmiumdove_walk_next(&walk)) != CADMIUMDOVE_END) {
 *         if (cadmiumdove_walk_path(&walk, path, sizeof path - 1, &length) != CADMIUMDOVE_DONE)
 *             break;
 *         path[length] = 0;
 *         if (step == CADMIUMDOVE_LOOK)
 *             cadmiumdove_walk_looked(&walk, look(path));
 *         else if (step == CADMIUMDOVE_LIST || step == CADMIUMDOVE_LIST_NAMES)
 *             list(&walk, path);
 *         else if (step == CADMIUMDOVE_PATH)
 *             puts(path);
 *     }
 *
 * If all answers agree with one tree, the items are those of the written listing for the pattern. Whatever the answers,
 * the walk keeps to its limit, so it ends if every question is answered; an unanswered question is asked again forever.
 * examples/find.c has `look` and `list`. */
uint32_t cadmiumdove_walk_new(struct cadmiumdove_walk *walk, const char *pattern, size_t length, uint32_t flags,
                              uint64_t limit, struct cadmiumdove_fault *fault);

/* Takes the next step with what was answered since the last. A question without a complete answer is repeated, and any
 * part of its answer is dropped. Of several answers the last one counts: a second `looked`, or `unread` after entries
 * or `listed`. Returns a step, or EMPTY. */
uint32_t cadmiumdove_walk_next(struct cadmiumdove_walk *walk);

/* Writes the path of the last step to `out`, which has room for `room` bytes, and its length to `needed`. It is not
 * zero-terminated. Before the first step and at END the path is empty; at MEMORY nothing is promised about it. Returns
 * DONE; EMPTY; or TOO_SHORT, and then `needed` is the room required.
 * The caller promises that `out` and `needed` do not overlap. */
uint32_t cadmiumdove_walk_path(struct cadmiumdove_walk *walk, char *out, size_t room, size_t *needed);

/* Answers CADMIUMDOVE_LOOK. Returns DONE, EMPTY or NOT_ASKED. A number not in cadmiumdove_look counts as MISSING. */
uint32_t cadmiumdove_walk_looked(struct cadmiumdove_walk *walk, uint32_t look);

/* Adds one entry to the answer to CADMIUMDOVE_LIST or CADMIUMDOVE_LIST_NAMES. Entries may come in any order. Returns
 * DONE, OUT_OF_MEMORY, NOT_UTF8, EMPTY, NOT_ASKED or NO_NAME. Unless DONE is returned, the entries are unchanged.
 * `is_dir` is also true for a symbolic link to a directory. */
uint32_t cadmiumdove_walk_entry(struct cadmiumdove_walk *walk, const char *name, size_t length, bool is_dir);

/* Ends the entries of the directory: all were added. Returns DONE, EMPTY or NOT_ASKED. */
uint32_t cadmiumdove_walk_listed(struct cadmiumdove_walk *walk);

/* Answers that the directory could not be listed. `code` is the system's error number, as in errno. Returns DONE, EMPTY
 * or NOT_ASKED. The next step is then CADMIUMDOVE_UNREAD. */
uint32_t cadmiumdove_walk_unread(struct cadmiumdove_walk *walk, int32_t code);

/* Frees the handle's walk, if there is one, and leaves the handle empty. The walk need not be over. */
void cadmiumdove_walk_free(struct cadmiumdove_walk *walk);

#ifdef __cplusplus
}
#endif

#endif
