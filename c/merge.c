/* merge BASE A B: prints the program that integrates two variants with their base, or why there is none. The status is hpr's.
 *
 *     cc merge.c $(pkg-config --cflags --libs hpr) -o merge
 */
#include <stdio.h>
#include <stdlib.h>

#include "hpr.h"

struct text {
    uint8_t *at;
    size_t length;
};

/* All of a file; it ends the process where it can't be read. */
static struct text read_file(const char *name) {
    struct text text = {NULL, 0};
    FILE *file = fopen(name, "rb");
    if (file) {
        size_t room = 0, got;
        do {
            room = 2 * room + 4096;
            text.at = realloc(text.at, room);
            if (!text.at) break;
            got = fread(text.at + text.length, 1, room - text.length, file);
            text.length += got;
        } while (text.length == room);
        if (text.at && !ferror(file)) {
            fclose(file);
            return text;
        }
    }
    fprintf(stderr, "merge: cannot read %s\n", name);
    exit(HPR_ABSENT);
}

int main(int count, char **words) {
    if (count != 4) {
        fprintf(stderr, "usage: merge BASE A B\n");
        return HPR_WORDS;
    }
    struct text base = read_file(words[1]), a = read_file(words[2]), b = read_file(words[3]), out = {NULL, 0}, err = {NULL, 0};
    hpr_sizes sizes;
    uint32_t status;
    /* the first turn finds how much room the texts take, and the second fills it */
    for (int turn = 0; turn < 2; turn++) {
        status = hpr_integrate(base.at, base.length, a.at, a.length, b.at, b.length, out.at, out.length, err.at, err.length, &sizes);
        if (turn == 0) {
            out = (struct text){malloc(sizes.out + 1), sizes.out};
            err = (struct text){malloc(sizes.err + 1), sizes.err};
            if (!out.at || !err.at) return HPR_MEMORY;
        }
    }
    fwrite(out.at, 1, out.length, stdout);
    fwrite(err.at, 1, err.length, stderr);
    free(base.at), free(a.at), free(b.at), free(out.at), free(err.at);
    return (int)status;
}
