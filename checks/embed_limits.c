/* What hpr in process does at its limits, for checks/embed:
 *
 *     embed_limits forms                 wrong forms, nulls, and rooms of each size up to that of the text
 *     embed_limits memory KIND BASE A B  each allocation refused in turn: of an integration, where KIND is `lines` or `data`, or of
 *                                        the `places` of the parts of BASE
 *     embed_limits stack KIB             the deepest loops and expressions that are read, on a thread with a stack of KIB
 */
#include <pthread.h>
#include <stdio.h>
#include <stdlib.h>
#include <string.h>

#include "hpr.h"

static int wrong;

static void is(const char *what, long got, long wanted) {
    if (got != wanted) {
        wrong = 1;
        fprintf(stderr, "embed_limits: %s: %ld, and not %ld\n", what, got, wanted);
    }
}

/* ---- allocations that are refused: the one of this number, since the linker puts these two in the place of malloc and realloc */

static long refused = -1, allocations;

void *__real_malloc(size_t), *__real_realloc(void *, size_t);

void *__wrap_malloc(size_t size) { return refused >= 0 && allocations++ == refused ? NULL : __real_malloc(size); }

void *__wrap_realloc(void *block, size_t size) { return refused >= 0 && allocations++ == refused ? NULL : __real_realloc(block, size); }

struct text {
    uint8_t *at;
    size_t length;
};

static struct text read_file(const char *name) {
    struct text text = {malloc(1 << 20), 0};
    FILE *file = fopen(name, "rb");
    if (!file) exit(2);
    text.length = fread(text.at, 1, 1 << 20, file);
    fclose(file);
    return text;
}

static uint32_t integrate(const struct text *t, uint8_t *out, size_t out_room, uint8_t *err, size_t err_room, hpr_sizes *sizes) {
    return hpr_integrate(t[0].at, t[0].length, t[1].at, t[1].length, t[2].at, t[2].length, out, out_room, err, err_room, sizes);
}

/* The same as data, which has no second text. */
static uint32_t integrate_data(const struct text *t, uint8_t *out, size_t out_room, uint8_t *err, size_t err_room, hpr_sizes *sizes) {
    static const char words[] = "integrate\0base\0a\0b", *names = words + sizeof "integrate";
    static uint8_t bytes[1 << 20];
    size_t lengths[3], all = 0;
    (void)err, (void)err_room;
    for (int i = 0; i < 3; all += t[i++].length) {
        lengths[i] = t[i].length;
        if (t[i].length) memcpy(bytes + all, t[i].at, t[i].length);
    }
    sizes->err = 0;
    return hpr_data((const uint8_t *)words, sizeof words, (const uint8_t *)names, sizeof words - sizeof "integrate", lengths, 3, bytes,
                    all, out, out_room, &sizes->out);
}

static uint32_t tell_places(const struct text *t, uint8_t *out, size_t out_room, uint8_t *err, size_t err_room, hpr_sizes *sizes) {
    (void)err, (void)err_room;
    sizes->err = 0;
    return hpr_places(t[0].at, t[0].length, out, out_room, &sizes->out);
}

typedef uint32_t maker(const struct text *, uint8_t *, size_t, uint8_t *, size_t, hpr_sizes *);

static int refuse_each(const char *kind, char **names) {
    maker *make = !strcmp(kind, "data") ? integrate_data : !strcmp(kind, "places") ? tell_places : integrate;
    struct text texts[3] = {read_file(names[0]), read_file(names[1]), read_file(names[2])};
    static uint8_t out[1 << 16], err[256], right[1 << 16];
    hpr_sizes sizes, whole;
    uint32_t wanted = make(texts, right, sizeof right, err, sizeof err, &whole);
    long ran_out = 0, at;
    for (at = 0;; at++) {
        memset(out, '#', sizeof out), memset(err, '#', sizeof err);
        allocations = 0, refused = at;
        uint32_t status = make(texts, out, sizeof out, err, sizeof err, &sizes);
        refused = -1;
        if (allocations <= at) break;
        if (status == HPR_MEMORY) {
            ran_out++;
            is("the size of `out` where there is no memory", (long)sizes.out, 0);
            is("the first byte of `out` then", out[0], '#');
            is("the message is whole or missing", sizes.err == 0 || (sizes.err == 15 && !memcmp(err, "hpr: no memory\n", 15)), 1);
        } else {
            is("the status, where it is done all the same", status, wanted);
            is("the text then", sizes.out == whole.out && !memcmp(out, right, whole.out), 1);
        }
    }
    is("a call that is refused nothing", sizes.out == whole.out && !memcmp(out, right, whole.out), 1);
    is("some are refused", ran_out > (make == tell_places ? 10 : 100), 1);
    printf("%s: %ld allocations refused in turn: %ld times there is no memory, %ld times it is done all the same\n", kind, at, ran_out,
           at - ran_out);
    for (int i = 0; i < 3; i++) free(texts[i].at);
    return wrong;
}

/* ---- forms */

static const char *program = "program\nissued 1:1\n1.1: x := 1;\nend(x)\n";

struct call {
    const char *words;
    size_t words_len;
    const char *names;
    size_t names_len;
    const size_t *lengths;
    size_t count;
    const char *bytes;
    size_t bytes_len;
};

/* Makes the call with rooms of just this size, and looks at what it put there. */
static uint32_t call_with(const struct call *c, size_t out_room, size_t err_room, hpr_sizes *sizes) {
    uint8_t *out = out_room ? malloc(out_room) : NULL, *err = err_room ? malloc(err_room) : NULL;
    for (size_t i = 0; i < out_room; i++) out[i] = '#';
    for (size_t i = 0; i < err_room; i++) err[i] = '#';
    sizes->out = sizes->err = 12345;
    uint32_t status = hpr_call((const uint8_t *)c->words, c->words_len, (const uint8_t *)c->names, c->names_len, c->lengths, c->count,
                               (const uint8_t *)c->bytes, c->bytes_len, out, out_room, err, err_room, sizes);
    for (size_t i = sizes->out; i < out_room; i++) is("a byte of `out` behind its text", out[i], '#');
    for (size_t i = sizes->err; i < err_room; i++) is("a byte of `err` behind its text", err[i], '#');
    free(out), free(err);
    return status;
}

/* The same of a room for data. */
static void look_at(const uint8_t *out, size_t room, size_t size) {
    for (size_t i = size; i < room; i++) is("a byte of the room behind its data", out[i], '#');
}

static uint8_t *filled(size_t room) {
    uint8_t *out = room ? malloc(room) : NULL;
    if (room) memset(out, '#', room);
    return out;
}

static uint32_t data_with(const struct call *c, size_t room, size_t *size) {
    uint8_t *out = filled(room);
    *size = 12345;
    uint32_t status = hpr_data((const uint8_t *)c->words, c->words_len, (const uint8_t *)c->names, c->names_len, c->lengths, c->count,
                               (const uint8_t *)c->bytes, c->bytes_len, out, room, size);
    look_at(out, room, *size), free(out);
    return status;
}

static uint32_t places_with(const char *text, size_t length, size_t room, size_t *size) {
    uint8_t *out = filled(room);
    *size = 12345;
    uint32_t status = hpr_places((const uint8_t *)text, length, out, room, size);
    look_at(out, room, *size), free(out);
    return status;
}

static void form(const char *what, struct call call, uint32_t wanted) {
    hpr_sizes sizes;
    size_t size;
    is(what, call_with(&call, 64, 64, &sizes), wanted);
    is(what, call_with(&call, 0, 0, &sizes), wanted);
    is(what, data_with(&call, 64, &size), wanted);
    is(what, data_with(&call, 0, &size), wanted);
    if (wanted == HPR_FORM) is("a form that is none has no text", (long)(sizes.out + sizes.err + size), 0);
    if (wanted != HPR_FORM) is("another has data", size > 0, 1);
}

static int try_forms(void) {
    size_t n = strlen(program), one[] = {n}, two[] = {n, 0}, longer[] = {n + 1}, huge[] = {~(size_t)0}, shorter[] = {n - 1}, twice[] = {n, n};
    char both[128];
    snprintf(both, sizeof both, "%s%s", "program\nissued 1:1\n1.1: x := 2;\nend(x)\n", program);
    form("no words", (struct call){NULL, 0, NULL, 0, NULL, 0, NULL, 0}, HPR_WORDS);
    form("a run", (struct call){"run\0f", 6, "f", 2, one, 1, program, n}, HPR_DONE);
    form("an absent file", (struct call){"run\0g", 6, "f", 2, one, 1, program, n}, HPR_ABSENT);
    form("a prefix of a file's name", (struct call){"run\0f", 6, "fg", 3, one, 1, program, n}, HPR_ABSENT);
    form("a file's name and more", (struct call){"run\0fg", 7, "f", 2, one, 1, program, n}, HPR_ABSENT);
    form("two files with one name", (struct call){"run\0f", 6, "f\0f", 4, twice, 2, both, 2 * n}, HPR_DONE);
    form("an empty file, at null", (struct call){"run\0f", 6, "f", 2, (size_t[]){0}, 1, NULL, 0}, HPR_REFUSED);
    form("an empty word", (struct call){"", 1, NULL, 0, NULL, 0, NULL, 0}, HPR_WORDS);
    form("an empty name", (struct call){"run\0", 5, "", 1, one, 1, program, n}, HPR_DONE);
    form("words that don't end", (struct call){"run\0f", 5, "f", 2, one, 1, program, n}, HPR_FORM);
    form("names that don't end", (struct call){"run\0f", 6, "f", 1, one, 1, program, n}, HPR_FORM);
    form("more lengths than names", (struct call){"run\0f", 6, "f", 2, two, 2, program, n}, HPR_FORM);
    form("more names than lengths", (struct call){"run\0f", 6, "f\0g", 4, one, 1, program, n}, HPR_FORM);
    form("no lengths", (struct call){"run\0f", 6, "f", 2, NULL, 0, program, n}, HPR_FORM);
    form("a length beyond the bytes", (struct call){"run\0f", 6, "f", 2, longer, 1, program, n}, HPR_FORM);
    form("a huge length", (struct call){"run\0f", 6, "f", 2, huge, 1, program, n}, HPR_FORM);
    form("bytes that are left over", (struct call){"run\0f", 6, "f", 2, shorter, 1, program, n}, HPR_FORM);
    form("bytes without files", (struct call){"run\0f", 6, NULL, 0, NULL, 0, program, n}, HPR_FORM);
    form("a word that is no UTF-8", (struct call){"run\0\xff", 6, "f", 2, one, 1, program, n}, HPR_FORM);
    form("a name that is no UTF-8", (struct call){"run\0f", 6, "\xc0\x80", 3, one, 1, program, n}, HPR_FORM);
    form("a strange command", (struct call){"jump", 5, "f", 2, one, 1, program, n}, HPR_WORDS);
    /* each size of a room, up to one more than the text */
    struct call tag = {"tag\0f\0--author\0001", 17, "f", 2, (size_t[]){24}, 1, "program x := 1; end(x)\n\n", 24};
    hpr_sizes sizes;
    is("tag", call_with(&tag, 0, 0, &sizes), HPR_DONE);
    for (size_t room = 0, most = sizes.out + 1; room <= most; room++) is("tag", call_with(&tag, room, room, &sizes), HPR_DONE);
    struct call run = {"run\0f", 6, "f", 2, one, 1, program, n};
    size_t size;
    is("a run", data_with(&run, 0, &size), HPR_DONE);
    for (size_t room = 0, most = size + 1; room <= most; room++) is("a run", data_with(&run, room, &size), HPR_DONE);
    is("its parts", places_with(program, n, 0, &size), HPR_DONE);
    for (size_t room = 0, most = size + 1; room <= most; room++) is("its parts", places_with(program, n, room, &size), HPR_DONE);
    is("the parts of nothing", places_with(NULL, 0, 64, &size), HPR_REFUSED);
    is("a command that isn't told as data", data_with(&tag, 64, &size), HPR_WORDS);
    struct text same[3], none[3] = {{NULL, 0}, {NULL, 0}, {NULL, 0}};
    for (int i = 0; i < 3; i++) same[i] = (struct text){(uint8_t *)program, n};
    uint8_t out[8] = "########";
    is("an integration into five bytes", integrate(same, out, 5, NULL, 0, &sizes), HPR_DONE);
    is("its size", (long)sizes.out, (long)n);
    is("its front", memcmp(out, "progr###", 8), 0);
    is("nulls", integrate(none, NULL, 0, NULL, 0, &sizes), HPR_REFUSED);
    static uint8_t large[4194305];
    memset(large, ' ', sizeof large);
    same[0] = (struct text){large, sizeof large};
    is("a file of 4,194,305 bytes", integrate(same, out, 8, NULL, 0, &sizes), HPR_REFUSED);
    is("its parts", hpr_places(large, sizeof large, out, 8, &size), HPR_REFUSED);
    is("the version", hpr_version(), HPR_VERSION_NUMBER);
    printf("forms and rooms: %s\n", wrong ? "something is wrong" : "as they are to be");
    return wrong;
}

/* ---- a small stack */

/* A program of 63 loops in one another, and one whose expression has 256 operators in one another. */
static struct text deep(int is_expression) {
    struct text text = {malloc(1 << 16), 0};
    char *p = (char *)text.at;
    int n = 0, depth = is_expression ? 256 : 63;
    if (is_expression) {
        n += sprintf(p + n, "program\nissued 1:1\n1.1: x := ");
        for (int i = 0; i < depth; i++) n += sprintf(p + n, "1 + (");
        n += sprintf(p + n, "1");
        for (int i = 0; i < depth; i++) p[n++] = ')';
        n += sprintf(p + n, ";\nend(x)\n");
    } else {
        n += sprintf(p + n, "program\nissued 1:%d\n", depth + 1);
        for (int i = 1; i <= depth; i++) n += sprintf(p + n, "1.%d: while x < 11 do\n", i);
        n += sprintf(p + n, "1.%d: x := 1;\n", depth + 1);
        for (int i = 1; i <= depth; i++) n += sprintf(p + n, "od\n");
        n += sprintf(p + n, "end(x)\n");
    }
    text.length = (size_t)n;
    return text;
}

static void *call_deep(void *arg) {
    (void)arg;
    for (int is_expression = 0; is_expression < 2; is_expression++) {
        struct text text = deep(is_expression), texts[3] = {text, text, text};
        hpr_sizes sizes;
        size_t size;
        is(is_expression ? "a deep expression" : "deep loops", integrate(texts, NULL, 0, NULL, 0, &sizes), HPR_DONE);
        is("the same as data", integrate_data(texts, NULL, 0, NULL, 0, &sizes), HPR_DONE);
        is("the places of its parts", hpr_places(text.at, text.length, NULL, 0, &size), HPR_DONE);
        free(text.at);
    }
    return NULL;
}

static int try_stack(long kib) {
    pthread_attr_t attributes;
    pthread_t thread;
    pthread_attr_init(&attributes);
    is("the stack's size is taken", pthread_attr_setstacksize(&attributes, (size_t)kib * 1024), 0);
    is("the thread begins", pthread_create(&thread, &attributes, call_deep, NULL), 0);
    pthread_join(thread, NULL);
    return wrong;
}

int main(int count, char **words) {
    if (count == 2 && !strcmp(words[1], "forms")) return try_forms();
    if (count == 6 && !strcmp(words[1], "memory")) return refuse_each(words[2], words + 3);
    if (count == 3 && !strcmp(words[1], "stack")) return try_stack(atol(words[2]));
    fprintf(stderr, "usage: embed_limits forms\n       embed_limits memory KIND BASE A B\n       embed_limits stack KIB\n");
    return 2;
}
