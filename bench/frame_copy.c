/* The least that a frame's bytes can cost: they are copied, over and over, and the caller takes the time.

       frame_copy one ROUNDS    into one new buffer: the least of writing
       frame_copy each ROUNDS   each text into a new buffer of its own: the least of reading, where each text is its row's own

   The lengths of the pieces come on standard input, a number a line: by turns of what stands between texts, and of a text. */
#include <stdio.h>
#include <stdlib.h>
#include <string.h>

struct piece {
    char *bytes;
    size_t size;
    char *copy;
};

static void *memory(size_t size) {
    void *found = malloc(size > 0 ? size : 1);
    if (found == NULL) {
        exit(1);
    }
    return found;
}

/* a byte of the copy, so that it cannot be left out */
static unsigned long look(const char *copy) {
    return (unsigned long)*(const volatile char *)copy;
}

static unsigned long copy_into_one(const struct piece *pieces, size_t count, size_t total) {
    char *buffer = memory(total), *at = buffer;
    for (size_t i = 0; i < count; i++) {
        memcpy(at, pieces[i].bytes, pieces[i].size);
        at += pieces[i].size;
    }
    unsigned long seen = look(buffer);
    free(buffer);
    return seen;
}

static unsigned long copy_each(struct piece *pieces, size_t count) {
    unsigned long seen = 0;
    for (size_t i = 1; i < count; i += 2) {
        pieces[i].copy = memory(pieces[i].size);
        memcpy(pieces[i].copy, pieces[i].bytes, pieces[i].size);
        seen += look(pieces[i].copy);
    }
    for (size_t i = 1; i < count; i += 2) {
        free(pieces[i].copy);
    }
    return seen;
}

int main(int argc, char **argv) {
    if (argc != 3) {
        fprintf(stderr, "usage: frame_copy one|each ROUNDS\n");
        return 2;
    }
    size_t count = 0, room = 16, total = 0, size;
    struct piece *pieces = memory(room * sizeof *pieces);
    while (scanf("%zu", &size) == 1) {
        if (count == room) {
            room *= 2;
            pieces = realloc(pieces, room * sizeof *pieces);
            if (pieces == NULL) {
                return 1;
            }
        }
        pieces[count].bytes = memory(size);
        memset(pieces[count].bytes, 'x', size);
        pieces[count++].size = size;
        total += size;
    }
    int each = strcmp(argv[1], "each") == 0;
    unsigned long seen = 0;
    for (long rounds = atol(argv[2]); rounds > 0; rounds--) {
        seen += each ? copy_each(pieces, count) : copy_into_one(pieces, count, total);
    }
    printf("%lu\n", seen);
    return 0;
}
