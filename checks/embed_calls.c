/* Calls of hpr in process, for checks/embed:
 *
 *     embed_calls call WORD..                          makes a call of the program over the files that its words name
 *     embed_calls data WORD..                          prints the same call's answer as data
 *     embed_calls rows FILE                            makes the calls of a file of rows, and compares each answer
 *     embed_calls tell FILE ANSWERS                    writes what is told as data of the rows, as embed_data.py reads it
 *     embed_calls bench KIND CALLS BASE A B            tells how long one integration takes; KIND is `lines` or `data`
 *     embed_calls threads KIND THREADS CALLS BASE A B  makes one integration as often from each of some threads
 *
 * What is handed in, and each room, lies in a block of just its size, so that valgrind sees what is read or written beside it. */
#include <pthread.h>
#include <stdio.h>
#include <stdlib.h>
#include <string.h>
#include <time.h>

#include "hpr.h"

struct text {
    uint8_t *at;
    size_t length;
};

/* A block of these bytes, and null for none. */
static struct text copy(const void *bytes, size_t length) {
    struct text text = {length ? malloc(length) : NULL, length};
    if (length) memcpy(text.at, bytes, length);
    return text;
}

static void add(struct text *text, const void *bytes, size_t length) {
    text->at = realloc(text->at, text->length + length + 1);
    if (length) memcpy(text->at + text->length, bytes, length);
    text->length += length;
}

static int read_file(const char *name, struct text *text) {
    uint8_t piece[4096];
    size_t got;
    FILE *file = fopen(name, "rb");
    *text = (struct text){NULL, 0};
    if (!file) return 0;
    struct text all = {NULL, 0};
    while ((got = fread(piece, 1, sizeof piece, file)) > 0) add(&all, piece, got);
    int is_read = !ferror(file);
    fclose(file);
    *text = copy(all.at, all.length);
    free(all.at);
    return is_read;
}

struct call {
    struct text words, names, bytes;
    size_t *lengths, count;
};

static void free_call(struct call call) { free(call.words.at), free(call.names.at), free(call.bytes.at), free(call.lengths); }

struct answer {
    uint32_t status;
    struct text out, err;
};

static void free_answer(struct answer answer) { free(answer.out.at), free(answer.err.at); }

static int is_same(struct text a, struct text b) {
    return a.length == b.length && (!a.length || !memcmp(a.at, b.at, a.length));
}

static struct text room_of(size_t length) { return (struct text){length ? malloc(length) : NULL, length}; }

static struct text small_room(void) { return copy("############", 12); }

/* Whether a small room has the front of a text and is otherwise as it was; frees it. */
static int has_front(struct text small, struct text whole) {
    size_t front = whole.length < small.length ? whole.length : small.length;
    int has = !front || !memcmp(small.at, whole.at, front);
    for (size_t i = front; i < small.length; i++) has &= small.at[i] == '#';
    free(small.at);
    return has;
}

static void fail(const char *what) {
    fprintf(stderr, "embed_calls: %s\n", what);
    exit(99);
}

/* Makes the call twice: with too little room, and with just enough. */
static struct answer answer_of(const struct call *call) {
    hpr_sizes sizes = {~(size_t)0, ~(size_t)0};
    struct answer answer = {0};
    struct text small = small_room();
    answer.status = hpr_call(call->words.at, call->words.length, call->names.at, call->names.length, call->lengths, call->count,
                             call->bytes.at, call->bytes.length, small.at, small.length, NULL, 0, &sizes);
    answer.out = room_of(sizes.out), answer.err = room_of(sizes.err);
    uint32_t again = hpr_call(call->words.at, call->words.length, call->names.at, call->names.length, call->lengths, call->count,
                              call->bytes.at, call->bytes.length, answer.out.at, answer.out.length, answer.err.at, answer.err.length,
                              &sizes);
    int is_front = has_front(small, answer.out);
    if (again != answer.status || sizes.out != answer.out.length || sizes.err != answer.err.length || !is_front)
        fail("a call with less room answers otherwise");
    return answer;
}

/* ---- what is told as data */

typedef uint32_t teller(const void *given, struct text out, size_t *size);

static uint32_t tell_call(const void *given, struct text out, size_t *size) {
    const struct call *call = given;
    return hpr_data(call->words.at, call->words.length, call->names.at, call->names.length, call->lengths, call->count, call->bytes.at,
                    call->bytes.length, out.at, out.length, size);
}

static uint32_t tell_places(const void *given, struct text out, size_t *size) {
    const struct text *text = given;
    return hpr_places(text->at, text->length, out.at, out.length, size);
}

/* Makes the call twice, as above. */
static struct answer told_by(teller *tell, const void *given) {
    size_t size = ~(size_t)0, again = ~(size_t)0;
    struct answer answer = {0};
    struct text small = small_room();
    answer.status = tell(given, small, &size);
    answer.out = room_of(size);
    uint32_t status = tell(given, answer.out, &again);
    int is_front = has_front(small, answer.out);
    if (status != answer.status || again != size || !is_front) fail("a call for data with less room answers otherwise");
    return answer;
}

/* The run of a text for one step: it is refused exactly where the places of its parts are, and as they are. */
static struct answer told_run(const struct text *text) {
    static const char words[] = "run\0text\0--steps\0001", name[] = "text";
    size_t length = text->length;
    struct call call = {copy(words, sizeof words), copy(name, sizeof name), copy(text->at, length), NULL, 1};
    call.lengths = malloc(sizeof length), *call.lengths = length;
    struct answer answer = told_by(tell_call, &call);
    free_call(call);
    return answer;
}

static struct answer told_places(const struct text *text) {
    struct answer places = told_by(tell_places, text), run = told_run(text);
    int is_refused = places.status == HPR_REFUSED;
    if (is_refused != (run.status == HPR_REFUSED) || (is_refused && !is_same(places.out, run.out)) || (!is_refused && places.status != HPR_DONE))
        fail("the places of a text's parts are refused otherwise than its run");
    free_answer(run);
    return places;
}

/* ---- words */

/* The call with these words over the files that they name. */
static struct call call_of(int count, char **words) {
    struct call call = {0};
    struct text all[3] = {{NULL, 0}, {NULL, 0}, {NULL, 0}};
    call.lengths = malloc((size_t)count * sizeof(size_t));
    for (int i = 0; i < count; i++) {
        struct text file;
        add(&all[0], words[i], strlen(words[i]) + 1);
        if (i > 0 && read_file(words[i], &file)) {
            add(&all[1], words[i], strlen(words[i]) + 1);
            add(&all[2], file.at, file.length);
            call.lengths[call.count++] = file.length;
            free(file.at);
        }
    }
    call.words = copy(all[0].at, all[0].length), call.names = copy(all[1].at, all[1].length), call.bytes = copy(all[2].at, all[2].length);
    for (int i = 0; i < 3; i++) free(all[i].at);
    return call;
}

static int call_words(int is_data, int count, char **words) {
    struct call call = call_of(count, words);
    struct answer answer = is_data ? told_by(tell_call, &call) : answer_of(&call);
    fwrite(answer.out.at, 1, answer.out.length, stdout);
    fwrite(answer.err.at, 1, answer.err.length, stderr);
    free_answer(answer), free_call(call);
    return (int)answer.status;
}

/* ---- rows */

static const uint8_t *at;

static uint64_t number(void) {
    uint64_t n = 0;
    for (int i = 7; i >= 0; i--) n = n << 8 | at[i];
    at += 8;
    return n;
}

static struct text bytes(void) {
    size_t length = number();
    struct text text = copy(at, length);
    at += length;
    return text;
}

/* The call of the next row, and its files, which are as many as `count`. */
static struct call call_of_row(struct text **files) {
    struct call call = {.words = bytes(), .names = bytes()};
    struct text all = {NULL, 0};
    for (size_t i = 0; i < call.names.length; i++) call.count += !call.names.at[i];
    call.lengths = call.count ? malloc(call.count * sizeof(size_t)) : NULL;
    *files = malloc((call.count + 1) * sizeof **files);
    for (size_t i = 0; i < call.count; i++) {
        (*files)[i] = bytes();
        call.lengths[i] = (*files)[i].length;
        add(&all, (*files)[i].at, (*files)[i].length);
    }
    call.bytes = copy(all.at, all.length);
    free(all.at);
    return call;
}

static void free_files(struct text *files, size_t count) {
    for (size_t i = 0; i < count; i++) free(files[i].at);
    free(files);
}

static int call_rows(const char *name) {
    struct text file, *files;
    long calls = 0, other = 0;
    if (!read_file(name, &file)) return 2;
    for (at = file.at; at < file.at + file.length; calls++) {
        struct call call = call_of_row(&files);
        uint64_t status = number();
        struct text out = bytes(), err = bytes();
        struct answer answer = answer_of(&call);
        if (answer.status != status || !is_same(answer.out, out) || !is_same(answer.err, err)) {
            other++;
            fprintf(stderr, "embed_calls: call %ld of the rows: status %u\n", calls, answer.status);
        }
        free_files(files, call.count), free_call(call), free_answer(answer);
        free(out.at), free(err.at);
    }
    free(file.at);
    printf("%ld calls, %ld answer otherwise\n", calls, other);
    return other != 0;
}

static void write_number(FILE *out, uint64_t number) {
    for (int i = 0; i < 8; i++) fputc((int)(number >> 8 * i & 255), out);
}

static void write_answer(FILE *out, struct answer answer) {
    write_number(out, answer.status), write_number(out, answer.out.length);
    fwrite(answer.out.at, 1, answer.out.length, out);
    free_answer(answer);
}

static int is_told(struct text words) {
    static const char *const commands[] = {"integrate", "affected", "graph", "run", "verify"};
    for (size_t at = 0; at < sizeof commands / sizeof *commands; at++)
        if (words.length && !strcmp((char *)words.at, commands[at])) return 1;
    return 0;
}

static int tell_rows(const char *name, const char *answers) {
    struct text file, *files;
    FILE *out = fopen(answers, "wb");
    if (!out || !read_file(name, &file)) return 2;
    for (at = file.at; at < file.at + file.length;) {
        struct call call = call_of_row(&files);
        number();
        struct text unread[2] = {bytes(), bytes()};
        if (is_told(call.words)) write_answer(out, told_by(tell_call, &call));
        for (size_t i = 0; i < call.count; i++) write_answer(out, told_places(&files[i]));
        free_files(files, call.count), free_call(call);
        free(unread[0].at), free(unread[1].at);
    }
    free(file.at);
    return fclose(out) != 0;
}

/* ---- one integration, many times */

struct job {
    struct text texts[3], wanted;
    struct call call; /* of the kind `data`, else without words */
    uint32_t status;
    long calls, other;
};

static uint32_t integrate(const struct job *job, struct text out, size_t *size) {
    const struct text *texts = job->texts;
    if (job->call.words.at) return tell_call(&job->call, out, size);
    hpr_sizes sizes;
    uint32_t status = hpr_integrate(texts[0].at, texts[0].length, texts[1].at, texts[1].length, texts[2].at, texts[2].length, out.at,
                                    out.length, NULL, 0, &sizes);
    *size = sizes.out;
    return status;
}

static void *work(void *arg) {
    struct job *job = arg;
    struct text out = {malloc(job->wanted.length), job->wanted.length};
    size_t size;
    for (long i = 0; i < job->calls; i++) {
        memset(out.at, 0, out.length);
        uint32_t status = integrate(job, out, &size);
        job->other += status != job->status || size != out.length || !is_same(out, job->wanted);
    }
    free(out.at);
    return NULL;
}

static double now(void) {
    struct timespec t;
    clock_gettime(CLOCK_MONOTONIC, &t);
    return (double)t.tv_sec + (double)t.tv_nsec * 1e-9;
}

static int call_often(int is_data, int threads, long calls, char **names) {
    struct job job = {.calls = calls}, each[64];
    char *words[] = {"integrate", names[0], names[1], names[2]};
    pthread_t ids[64];
    size_t size;
    long other = 0;
    for (int i = 0; i < 3; i++)
        if (!read_file(names[i], &job.texts[i])) return 2;
    if (is_data) job.call = call_of(4, words);
    job.status = integrate(&job, (struct text){NULL, 0}, &size);
    job.wanted = (struct text){malloc(size + 1), size};
    integrate(&job, job.wanted, &size);
    double begun = now();
    for (int i = 0; i < threads; i++) {
        each[i] = job;
        if (pthread_create(&ids[i], NULL, work, &each[i])) return 2;
    }
    for (int i = 0; i < threads; i++) pthread_join(ids[i], NULL), other += each[i].other;
    double took = now() - begun;
    printf("%ld calls, %ld answer otherwise, %.0f a second\n", threads * calls, other, (double)threads * (double)calls / took);
    for (int i = 0; i < 3; i++) free(job.texts[i].at);
    free(job.wanted.at), free_call(job.call);
    return other != 0;
}

int main(int count, char **words) {
    int is_data = count >= 3 && !strcmp(words[2], "data"), has_kind = is_data || (count >= 3 && !strcmp(words[2], "lines"));
    if (count >= 2 && !strcmp(words[1], "call")) return call_words(0, count - 2, words + 2);
    if (count >= 2 && !strcmp(words[1], "data")) return call_words(1, count - 2, words + 2);
    if (count == 3 && !strcmp(words[1], "rows")) return call_rows(words[2]);
    if (count == 4 && !strcmp(words[1], "tell")) return tell_rows(words[2], words[3]);
    if (count == 7 && has_kind && !strcmp(words[1], "bench")) return call_often(is_data, 1, atol(words[3]), words + 4);
    if (count == 8 && has_kind && !strcmp(words[1], "threads") && atoi(words[3]) <= 64)
        return call_often(is_data, atoi(words[3]), atol(words[4]), words + 5);
    fprintf(stderr, "usage: embed_calls call|data WORD..\n       embed_calls rows FILE\n       embed_calls tell FILE ANSWERS\n"
                    "       embed_calls bench lines|data CALLS BASE A B\n       embed_calls threads lines|data THREADS CALLS BASE A B\n");
    return 2;
}
