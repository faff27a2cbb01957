// Preloaded into a program: its request number REFUSED for memory, counted from 1, fails; 0 refuses none. At the end it
// writes to the file COUNTED how many requests there were and how many blocks are still held.
#include <fcntl.h>
#include <stdio.h>
#include <stdlib.h>

void *__libc_malloc(size_t size);
void *__libc_realloc(void *block, size_t size);
void __libc_free(void *block);

static unsigned long refused, asked;
static long held;

void *malloc(size_t size) {
    void *block = ++asked == refused ? NULL : __libc_malloc(size);
    held += block != NULL;
    return block;
}

void *realloc(void *block, size_t size) {
    void *grown = ++asked == refused ? NULL : __libc_realloc(block, size);
    held += block == NULL && grown != NULL;
    return grown;
}

void free(void *block) {
    held -= block != NULL;
    __libc_free(block);
}

__attribute__((constructor)) static void begin(void) {
    refused = strtoul(getenv("REFUSED"), NULL, 10);
    asked = 0, held = 0;
}

__attribute__((destructor)) static void end(void) {
    dprintf(creat(getenv("COUNTED"), 0600), "%lu %ld\n", asked, held);
}
