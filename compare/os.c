/* What the toolchain's libraries os and libc have in C, for a processor that the toolchain compiles no programs for:
 * `compare/native program` links it. A `&mut [u8]` passes as a pointer and a length. */
#include <errno.h>
#include <stddef.h>
#include <stdint.h>
#include <stdlib.h>
#include <string.h>

static int count;
static char **words;

__attribute__((constructor)) static void keep(int argc, char **argv, char **env) {
    (void)env;
    count = argc;
    words = argv;
}

size_t rattle_arg_count(void) { return (size_t)count; }

ptrdiff_t rattle_arg(size_t i, uint8_t *buf, size_t len) {
    if (i >= (size_t)count) return -1;
    size_t n = strlen(words[i]);
    memcpy(buf, words[i], n < len ? n : len);
    return n <= len ? (ptrdiff_t)n : -2;
}

int rattle_errno(void) { return errno; }

void rattle_set_errno(int error) { errno = error; }

/* What memory comes to: whether there is some, and where; else a byte that nobody owns. */
struct tried { unsigned char ok; uint8_t *p; };

static uint8_t none;

static struct tried tried(uint8_t *p) { return p ? (struct tried){1, p} : (struct tried){0, &none}; }

struct tried rattle_alloc(size_t n, size_t align) { return tried(malloc(n ? n : align)); }

struct tried rattle_realloc(uint8_t *p, size_t kept, size_t n, size_t align) {
    (void)kept;
    return tried(realloc(p, n ? n : align));
}

void rattle_dealloc(uint8_t *p) { free(p); }
