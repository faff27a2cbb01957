/* Calls each function of include/cadmiumdove.h. The first fact that does not hold ends it, which says where. */
#undef NDEBUG
#include <assert.h>
#include <stdbool.h>
#include <stdint.h>
#include <string.h>

#include "cadmiumdove.h"

/* How many requests for memory succeed before the others fail, or -1 for all, and how many blocks are held. The linker
 * puts these three in the place of malloc, realloc and free. */
static int allowed = -1, blocks = 0;

static bool is_refused(void) {
    if (allowed <= 0)
        return allowed == 0;
    allowed--;
    return false;
}

void *__real_malloc(size_t size);
void *__real_realloc(void *block, size_t size);
void __real_free(void *block);

void *__wrap_malloc(size_t size) {
    void *made = is_refused() ? NULL : __real_malloc(size);
    blocks += made != NULL;
    return made;
}

void *__wrap_realloc(void *block, size_t size) {
    void *made = is_refused() ? NULL : __real_realloc(block, size);
    blocks += block == NULL && made != NULL;
    return made;
}

void __wrap_free(void *block) {
    blocks -= block != NULL;
    __real_free(block);
}

static uint32_t matches(const struct cadmiumdove_pattern *pattern, const char *text, uint32_t flags) {
    return cadmiumdove_pattern_matches(pattern, text, strlen(text), flags);
}

/* the answer of a text, which is freed again where it is a pattern */
static uint32_t parse(const char *text, struct cadmiumdove_fault *fault) {
    struct cadmiumdove_pattern pattern = {0};
    uint32_t answer = cadmiumdove_pattern_new(&pattern, text, strlen(text), fault);
    if (answer == CADMIUMDOVE_DONE)
        cadmiumdove_pattern_free(&pattern);
    return answer;
}

static void matching(void) {
    struct cadmiumdove_pattern pattern = {0};
    struct cadmiumdove_fault fault = {7, 7};
    assert(cadmiumdove_pattern_new(&pattern, "A*", 2, &fault) == CADMIUMDOVE_DONE);
    assert(fault.place == 7 && fault.message == 7);
    assert(matches(&pattern, "A/b", 0) == CADMIUMDOVE_YES);
    assert(matches(&pattern, "a/b", 0) == CADMIUMDOVE_NO);
    assert(matches(&pattern, "a/b", CADMIUMDOVE_CASE_INSENSITIVE) == CADMIUMDOVE_YES);
    assert(matches(&pattern, "A/b", CADMIUMDOVE_LITERAL_SEPARATOR) == CADMIUMDOVE_NO);
    assert(matches(&pattern, "a/b", CADMIUMDOVE_CASE_INSENSITIVE | CADMIUMDOVE_LITERAL_SEPARATOR) == CADMIUMDOVE_NO);
    struct cadmiumdove_pattern moved = pattern;
    assert(matches(&moved, "A", 0) == CADMIUMDOVE_YES);
    cadmiumdove_pattern_free(&moved);
    assert(cadmiumdove_pattern_new(&moved, "*", 1, &fault) == CADMIUMDOVE_DONE);
    assert(matches(&moved, ".x", 0) == CADMIUMDOVE_YES);
    assert(matches(&moved, ".x", CADMIUMDOVE_LITERAL_LEADING_DOT) == CADMIUMDOVE_NO);
    assert(matches(&moved, "", 0) == CADMIUMDOVE_YES);
    assert(matches(&moved, "\xff", 0) == CADMIUMDOVE_NOT_UTF8);
    assert(matches(&moved, "a", 8) == CADMIUMDOVE_UNKNOWN_FLAG);
    assert(cadmiumdove_pattern_matches_unchecked(&moved, "a", 1, 0) == CADMIUMDOVE_YES);
    assert(cadmiumdove_pattern_matches_unchecked(&moved, "a", 1, 16) == CADMIUMDOVE_UNKNOWN_FLAG);
    assert(cadmiumdove_pattern_matches_at(moved.at, "a", 1, 16) == CADMIUMDOVE_UNKNOWN_FLAG);
    assert(cadmiumdove_pattern_new(&moved, "b", 1, &fault) == CADMIUMDOVE_IN_USE);
    assert(matches(&moved, "a", 0) == CADMIUMDOVE_YES);
    cadmiumdove_pattern_free(&moved);
    cadmiumdove_pattern_free(&moved);
    assert(matches(&moved, "a", 0) == CADMIUMDOVE_EMPTY);
    assert(cadmiumdove_pattern_matches_unchecked(&moved, "a", 1, 0) == CADMIUMDOVE_EMPTY);
    assert(cadmiumdove_pattern_new(&moved, "b", 1, &fault) == CADMIUMDOVE_DONE);
    assert(matches(&moved, "a", 0) == CADMIUMDOVE_NO);
    cadmiumdove_pattern_free(&moved);
}

static void faults(void) {
    struct cadmiumdove_fault fault;
    assert(parse("", &fault) == CADMIUMDOVE_DONE);
    assert(parse("a/**b", &fault) == CADMIUMDOVE_SYNTAX_FAULT && fault.place == 4
           && fault.message == CADMIUMDOVE_RECURSIVE);
    assert(parse("a/*****", &fault) == CADMIUMDOVE_SYNTAX_FAULT && fault.place == 4
           && fault.message == CADMIUMDOVE_WILDCARDS);
    /* e with an acute accent is one character of two bytes */
    assert(parse("\xc3\xa9[a", &fault) == CADMIUMDOVE_SYNTAX_FAULT && fault.place == 1
           && fault.message == CADMIUMDOVE_RANGE);
    assert(!strcmp(cadmiumdove_message_text(0), "wildcards are either regular `*` or recursive `**`"));
    assert(!strcmp(cadmiumdove_message_text(1), "recursive wildcards must form a single path component"));
    assert(!strcmp(cadmiumdove_message_text(2), "invalid range pattern"));
    assert(parse("a\xff", &fault) == CADMIUMDOVE_NOT_UTF8);
}

static void escaping(void) {
    char out[16];
    size_t needed = 0;
    memset(out, '.', sizeof out);
    assert(cadmiumdove_pattern_escape("a[1]", 4, out, 7, &needed) == CADMIUMDOVE_TOO_SHORT && needed == 8
           && out[0] == '.');
    assert(cadmiumdove_pattern_escape("a[1]", 4, out, 8, &needed) == CADMIUMDOVE_DONE && needed == 8);
    assert(memcmp(out, "a[[]1[]].", 9) == 0);
    /* the length alone is asked for, with no room */
    needed = 0;
    assert(cadmiumdove_pattern_escape("a[1]", 4, out, 0, &needed) == CADMIUMDOVE_TOO_SHORT && needed == 8);
    assert(cadmiumdove_pattern_escape("ab", 2, out, 0, &needed) == CADMIUMDOVE_TOO_SHORT && needed == 2);
    assert(cadmiumdove_pattern_escape("", 0, out, 0, &needed) == CADMIUMDOVE_DONE && needed == 0);
    assert(memcmp(out, "a[[]1[]].", 9) == 0);
    assert(cadmiumdove_pattern_escape("\xff", 1, out, 16, &needed) == CADMIUMDOVE_NOT_UTF8);
}

/* Each request for memory fails in turn, and nothing is lost by it. A pattern holds some blocks until it is freed. */
static void memory(void) {
    char longest[401] = {0};
    struct cadmiumdove_pattern pattern = {0};
    struct cadmiumdove_fault fault;
    char out[16];
    size_t needed;
    int requests = -1;
    uint32_t answer;
    do {
        allowed = ++requests;
        answer = cadmiumdove_pattern_new(&pattern, "a/**/[b-d]*", 11, &fault);
        assert(answer == CADMIUMDOVE_DONE || answer == CADMIUMDOVE_OUT_OF_MEMORY);
    } while (answer != CADMIUMDOVE_DONE);
    assert(requests >= 4);
    assert(blocks > 0);
    allowed = 0;
    assert(matches(&pattern, "a/x/c", 0) == CADMIUMDOVE_YES);
    assert(cadmiumdove_pattern_escape("a", 1, out, 16, &needed) == CADMIUMDOVE_OUT_OF_MEMORY);
    cadmiumdove_pattern_free(&pattern);
    allowed = -1;
    for (int i = 0; i < 400; i += 2)
        memcpy(longest + i, "*a", 2);
    assert(cadmiumdove_pattern_new(&pattern, longest, strlen(longest), &fault) == CADMIUMDOVE_DONE);
    allowed = 0;
    assert(matches(&pattern, longest, 0) == CADMIUMDOVE_OUT_OF_MEMORY);
    allowed = -1;
    assert(matches(&pattern, longest, 0) == CADMIUMDOVE_YES);
    cadmiumdove_pattern_free(&pattern);
}

/* Answers as a tree of a directory `d` with a file `x`, and of a directory `shut` that cannot be listed, until the walk
 * ends or an answer is refused. */
static uint32_t drive(struct cadmiumdove_walk *walk, int *found, int *unread) {
    char path[64];
    size_t length;
    uint32_t step, answer = CADMIUMDOVE_DONE;
    while ((step = cadmiumdove_walk_next(walk)) != CADMIUMDOVE_END && step != CADMIUMDOVE_EMPTY) {
        assert(cadmiumdove_walk_path(walk, path, sizeof path - 1, &length) == CADMIUMDOVE_DONE);
        path[length] = 0;
        if (step == CADMIUMDOVE_LOOK)
            answer = cadmiumdove_walk_looked(walk, strchr(path, 'x') ? CADMIUMDOVE_OTHER : CADMIUMDOVE_DIRECTORY);
        else if (step == CADMIUMDOVE_PATH)
            ++*found;
        else if (step == CADMIUMDOVE_UNREAD)
            ++*unread;
        else if (step == CADMIUMDOVE_MEMORY || step == CADMIUMDOVE_LIMIT)
            answer = step;
        else if (strstr(path, "shut"))
            answer = cadmiumdove_walk_unread(walk, 13);
        else {
            bool is_top = !strcmp(path, ".");
            answer = cadmiumdove_walk_entry(walk, is_top ? "d" : "x", 1, is_top);
            if (answer == CADMIUMDOVE_DONE && is_top)
                answer = cadmiumdove_walk_entry(walk, "shut", 4, true);
            if (answer == CADMIUMDOVE_DONE)
                answer = cadmiumdove_walk_listed(walk);
        }
        if (answer != CADMIUMDOVE_DONE)
            return answer;
    }
    return step;
}

static uint32_t begin(struct cadmiumdove_walk *walk, const char *pattern, uint64_t limit) {
    struct cadmiumdove_fault fault;
    return cadmiumdove_walk_new(walk, pattern, strlen(pattern), 0, limit, &fault);
}

static void walking(void) {
    struct cadmiumdove_walk walk = {0};
    struct cadmiumdove_fault fault = {7, 7};
    int found = 0, unread = 0;
    assert(begin(&walk, "*/*", 1000) == CADMIUMDOVE_DONE);
    assert(begin(&walk, "*", 1) == CADMIUMDOVE_IN_USE);
    assert(drive(&walk, &found, &unread) == CADMIUMDOVE_END && found == 1 && unread == 1);
    assert(cadmiumdove_walk_next(&walk) == CADMIUMDOVE_END);
    size_t length = 7;
    assert(cadmiumdove_walk_path(&walk, NULL, 0, &length) == CADMIUMDOVE_DONE && length == 0);
    cadmiumdove_walk_free(&walk);
    cadmiumdove_walk_free(&walk);
    assert(cadmiumdove_walk_next(&walk) == CADMIUMDOVE_EMPTY);
    assert(begin(&walk, "**", 0) == CADMIUMDOVE_DONE);
    assert(drive(&walk, &found, &unread) == CADMIUMDOVE_LIMIT);
    assert(cadmiumdove_walk_next(&walk) == CADMIUMDOVE_END);
    cadmiumdove_walk_free(&walk);
    assert(cadmiumdove_walk_new(&walk, "d/a**", 5, 0, 9, &fault) == CADMIUMDOVE_SYNTAX_FAULT);
    assert(fault.place == 2 && fault.message == CADMIUMDOVE_RECURSIVE);
    assert(cadmiumdove_walk_new(&walk, "a", 1, 8, 9, &fault) == CADMIUMDOVE_UNKNOWN_FLAG);
    assert(cadmiumdove_walk_new(&walk, "\xff", 1, 0, 9, &fault) == CADMIUMDOVE_NOT_UTF8);
}

/* A driver that answers what was not asked, or not in full, and stops in the middle. Before the first step the path is
 * empty. */
static void wrong_answers(void) {
    struct cadmiumdove_walk walk = {0};
    char path[2];
    size_t length = 0;
    assert(cadmiumdove_walk_looked(&walk, 0) == CADMIUMDOVE_EMPTY);
    assert(cadmiumdove_walk_entry(&walk, "x", 1, false) == CADMIUMDOVE_EMPTY);
    assert(cadmiumdove_walk_listed(&walk) == CADMIUMDOVE_EMPTY);
    assert(cadmiumdove_walk_unread(&walk, 1) == CADMIUMDOVE_EMPTY);
    assert(cadmiumdove_walk_path(&walk, path, 1, &length) == CADMIUMDOVE_EMPTY);
    assert(begin(&walk, "*", 1000) == CADMIUMDOVE_DONE);
    length = 7;
    assert(cadmiumdove_walk_path(&walk, path, 0, &length) == CADMIUMDOVE_DONE && length == 0);
    assert(cadmiumdove_walk_looked(&walk, 0) == CADMIUMDOVE_NOT_ASKED);
    assert(cadmiumdove_walk_next(&walk) == CADMIUMDOVE_LOOK);
    assert(cadmiumdove_walk_path(&walk, path, 0, &length) == CADMIUMDOVE_TOO_SHORT && length == 1);
    assert(cadmiumdove_walk_entry(&walk, "x", 1, false) == CADMIUMDOVE_NOT_ASKED);
    assert(cadmiumdove_walk_listed(&walk) == CADMIUMDOVE_NOT_ASKED);
    assert(cadmiumdove_walk_unread(&walk, 1) == CADMIUMDOVE_NOT_ASKED);
    assert(cadmiumdove_walk_next(&walk) == CADMIUMDOVE_LOOK);
    assert(cadmiumdove_walk_looked(&walk, CADMIUMDOVE_MISSING) == CADMIUMDOVE_DONE);
    assert(cadmiumdove_walk_looked(&walk, CADMIUMDOVE_DIRECTORY) == CADMIUMDOVE_DONE);
    assert(cadmiumdove_walk_next(&walk) == CADMIUMDOVE_LIST_NAMES);
    assert(cadmiumdove_walk_looked(&walk, 0) == CADMIUMDOVE_NOT_ASKED);
    assert(cadmiumdove_walk_entry(&walk, "forgotten", 9, false) == CADMIUMDOVE_DONE);
    assert(cadmiumdove_walk_next(&walk) == CADMIUMDOVE_LIST_NAMES);
    assert(cadmiumdove_walk_entry(&walk, "..", 2, true) == CADMIUMDOVE_NO_NAME);
    assert(cadmiumdove_walk_entry(&walk, "a/b", 3, true) == CADMIUMDOVE_NO_NAME);
    assert(cadmiumdove_walk_entry(&walk, "", 0, true) == CADMIUMDOVE_NO_NAME);
    assert(cadmiumdove_walk_entry(&walk, "\xff", 1, true) == CADMIUMDOVE_NOT_UTF8);
    assert(cadmiumdove_walk_entry(&walk, "y", 1, false) == CADMIUMDOVE_DONE);
    assert(cadmiumdove_walk_entry(&walk, "x", 1, true) == CADMIUMDOVE_DONE);
    assert(cadmiumdove_walk_listed(&walk) == CADMIUMDOVE_DONE);
    assert(cadmiumdove_walk_entry(&walk, "z", 1, true) == CADMIUMDOVE_NOT_ASKED);
    assert(cadmiumdove_walk_listed(&walk) == CADMIUMDOVE_NOT_ASKED);
    assert(cadmiumdove_walk_next(&walk) == CADMIUMDOVE_PATH);
    assert(cadmiumdove_walk_path(&walk, path, 2, &length) == CADMIUMDOVE_DONE && length == 1 && path[0] == 'x');
    cadmiumdove_walk_free(&walk);
}

/* Each request for memory of a walk fails in turn, and nothing is lost by it. */
static void memory_of_a_walk(void) {
    struct cadmiumdove_walk walk = {0};
    uint32_t answer = CADMIUMDOVE_OUT_OF_MEMORY;
    int requests = 0, found = 0, unread = 0;
    for (; answer != CADMIUMDOVE_END; requests++) {
        allowed = requests;
        found = unread = 0;
        answer = begin(&walk, "*/**/x", 1000);
        if (answer == CADMIUMDOVE_DONE)
            answer = drive(&walk, &found, &unread);
        assert(answer == CADMIUMDOVE_END || answer == CADMIUMDOVE_OUT_OF_MEMORY || answer == CADMIUMDOVE_MEMORY);
        cadmiumdove_walk_free(&walk);
        assert(blocks == 0);
    }
    allowed = -1;
    assert(requests >= 10 && found == 1 && unread == 1);
}

int main(void) {
    void (*const all[])(void) = {matching, faults, escaping, memory, walking, wrong_answers, memory_of_a_walk};
    for (size_t i = 0; i < sizeof all / sizeof *all; i++) {
        all[i]();
        /* The calls leave no block behind. */
        assert(blocks == 0);
    }
    return 0;
}
