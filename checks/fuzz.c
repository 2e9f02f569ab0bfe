/* What checks/fuzz runs: one input is one call, and the shapes of its answer stand for the ways that the program went, since its own code can't
 * tell AFL++ of them. A status that no table has, a text behind a room, or another answer to the same call ends the process by abort.
 *
 * With LIBRARY an input is a call of hpr.h: its words, and behind each byte 30 a file's name, a byte 31 and the file; a byte 29 stands
 * for the zero byte of a word. Else it is standard input of the program HPRKIT with the words `tag - --author 1 --keep`; what that prints is given to
 * `fmt -`, and what this prints to it once more, which prints the same.
 *
 *     fuzz FILE..             makes the calls of these files
 *     fuzz --blind SECONDS SEED OUT FILE..   makes calls that are drawn from them; the one that is being made stands in OUT
 */
#include <poll.h>
#include <signal.h>
#include <spawn.h>
#include <stdint.h>
#include <stdio.h>
#include <stdlib.h>
#include <string.h>
#include <sys/mman.h>
#include <sys/wait.h>
#include <time.h>
#include <unistd.h>

#ifdef LIBRARY
#include "hpr.h"
#endif

enum { MOST = 1 << 20 };
static uint8_t text[MOST], other[MOST];

#ifdef __AFL_FUZZ_TESTCASE_LEN
__AFL_FUZZ_INIT();
extern uint8_t *area_of_afl(void); /* in a file that isn't made for AFL++, which has the name for itself elsewhere */
#endif

static void seen(uint64_t sum) {
    (void)sum;
#ifdef __AFL_FUZZ_TESTCASE_LEN
    sum ^= sum >> 32;
    area_of_afl()[(sum ^ sum >> 16) & 0xffff]++;
#endif
}

/* Notes the shapes of a text's first lines: numbers and names are all alike. */
static void note(uint32_t status, const uint8_t *at, size_t length) {
    uint64_t sum = 0xcbf29ce484222325 + status;
    int lines = 0, before = 0;
    seen(sum * 31);
    for (size_t i = 0; i < length && i < 4096 && lines < 40; i++) {
        int kind = at[i] >= '0' && at[i] <= '9' ? '0' : at[i];
        if (kind != '0' || before != '0') sum = (sum ^ (uint64_t)kind) * 0x100000001b3;
        before = kind;
        if (at[i] == '\n') seen(sum), sum = 0xcbf29ce484222325 + status, lines++;
    }
    seen(sum + 7);
}

static void no(const char *what, long got) {
    fprintf(stderr, "fuzz: %s: %ld\n", what, got);
    abort();
}

#ifdef LIBRARY
/* a block that ends before pages that can't be touched */
static uint8_t *edge(void) {
    uint8_t *all = mmap(NULL, MOST + 4096, PROT_READ | PROT_WRITE, MAP_PRIVATE | MAP_ANONYMOUS, -1, 0);
    if (all == MAP_FAILED || mprotect(all + MOST, 4096, PROT_NONE)) exit(3);
    return all + MOST;
}

static void make(const uint8_t *input, size_t length) {
    static uint8_t *ends[4];
    static uint8_t words[MOST], names[MOST], bytes[MOST], room[MOST];
    size_t words_len = 0, names_len = 0, bytes_len = 0, lengths[64], count = 0, at = 0, size;
    for (int i = 0; i < 4; i++)
        if (!ends[i]) ends[i] = edge();
    for (; at < length && input[at] != 30; at++) words[words_len++] = input[at] == 29 ? 0 : input[at];
    while (at < length && count < 64) {
        size_t begun = bytes_len;
        for (at++; at < length && input[at] != 31 && input[at] != 30; at++) names[names_len++] = input[at] == 29 ? 0 : input[at];
        if (at < length && input[at] == 31)
            for (at++; at < length && input[at] != 30; at++) bytes[bytes_len++] = input[at];
        lengths[count++] = bytes_len - begun;
    }
    /* a run goes on for so many steps that it ends soon */
    const uint8_t *w = memcpy(ends[0] - words_len, words, words_len), *n = memcpy(ends[1] - names_len, names, names_len);
    const uint8_t *b = memcpy(ends[2] - bytes_len, bytes, bytes_len);
    hpr_sizes sizes, again;
    uint32_t status = hpr_call(w, words_len, n, names_len, lengths, count, b, bytes_len, text, MOST, other, MOST, &sizes);
    if (status > 10 ? status != HPR_FORM : status == 6) no("the status of a call", status);
    size_t out = sizes.out < MOST ? sizes.out : MOST, err = sizes.err < MOST ? sizes.err : MOST;
    if ((status == HPR_FORM && out + err) || (status >= 4 && status <= 8 && out) || (status >= 4 && status <= 7 && !err)) no("texts with status", status);
    if ((status < 4 || status > 8) && status != HPR_FORM && err) no("a message with status", status);
    note(status, text, out), note(status + 100, other, err);
    size_t small = out / 2;
    uint8_t *to = ends[3] - small;
    uint32_t same = hpr_call(w, words_len, n, names_len, lengths, count, b, bytes_len, to, small, NULL, 0, &again);
    if (same != status || again.out != sizes.out || again.err != sizes.err || memcmp(to, text, small)) no("a call with less room ends with", same);
    same = hpr_data(w, words_len, n, names_len, lengths, count, b, bytes_len, room, MOST, &size);
    if (same != status && same != HPR_WORDS) no("the status of data", same);
    size_t told = size < MOST ? size : MOST;
    if (same == HPR_FORM && told) no("data of no form", (long)told);
    note(same + 200, room, told);
    if (count) {
        same = hpr_places(b, lengths[0] <= bytes_len ? lengths[0] : 0, room, MOST, &size);
        if (same != HPR_DONE && same != HPR_REFUSED) no("the status of places", same);
    }
}
#else
/* Runs the program over standard input; its status, and what it prints and says, one behind the other, into the text. */
static int called(char *const *words, const uint8_t *input, size_t length, uint8_t *to, size_t *taken) {
    extern char **environ;
    int in[2], out[2], ended;
    pid_t child;
    posix_spawn_file_actions_t actions;
    if (pipe(in) || pipe(out)) exit(3);
    posix_spawn_file_actions_init(&actions);
    posix_spawn_file_actions_adddup2(&actions, in[0], 0), posix_spawn_file_actions_adddup2(&actions, out[1], 1);
    posix_spawn_file_actions_adddup2(&actions, out[1], 2);
    for (int i = 0; i < 2; i++) posix_spawn_file_actions_addclose(&actions, in[i]), posix_spawn_file_actions_addclose(&actions, out[i]);
    if (posix_spawn(&child, words[0], &actions, NULL, words, environ)) exit(3);
    posix_spawn_file_actions_destroy(&actions);
    close(in[0]), close(out[1]);
    size_t put = 0;
    *taken = 0;
    for (;;) {
        struct pollfd each[2] = {{out[0], POLLIN, 0}, {put < length ? in[1] : -1, POLLOUT, 0}};
        if (put == length && in[1] >= 0) close(in[1]), in[1] = -1;
        poll(each, 2, -1);
        if (each[1].revents) {
            ssize_t n = write(in[1], input + put, length - put < 4096 ? length - put : 4096);
            put = n < 0 ? length : put + (size_t)n;
        }
        if (each[0].revents) {
            ssize_t n = read(out[0], to + *taken, MOST - *taken);
            if (n <= 0) break;
            *taken += (size_t)n;
        }
    }
    if (in[1] >= 0) close(in[1]);
    close(out[0]);
    waitpid(child, &ended, 0);
    if (!WIFEXITED(ended)) no("a signal ended it", ended);
    return WEXITSTATUS(ended);
}

static void make(const uint8_t *input, size_t length) {
    char *program = getenv("HPRKIT");
    char *tag[] = {program, "tag", "-", "--author", "1", "--keep", NULL}, *format[] = {program, "fmt", "-", NULL};
    size_t taken, more;
    int status = called(tag, input, length, text, &taken);
    note((uint32_t)status, text, taken);
    if (status != 0 && status != 4) no("the status of tag", status);
    if (status != 0 || taken == MOST) return;
    if ((status = called(format, text, taken, other, &more)) != 0) no("what tag prints is no program: status", status);
    if (called(tag, text, taken, other, &more) != 0 || more != taken || memcmp(text, other, more)) no("what tag prints gets other tags", (long)more);
    called(format, text, taken, other, &more);
    note(1000, other, more);
    if (called(format, other, more, text, &taken) != 0 || more != taken || memcmp(text, other, more)) no("what fmt prints isn't canonical", (long)more);
}
#endif

/* ---- drawn, where AFL++ isn't there */

static uint64_t state;

static uint64_t draw(uint64_t below) {
    state ^= state << 13, state ^= state >> 7, state ^= state << 17;
    return below ? state % below : 0;
}

struct file {
    uint8_t *at;
    size_t length;
};

static struct file read_file(const char *name) {
    struct file file = {malloc(MOST), 0};
    FILE *in = fopen(name, "rb");
    if (!in) exit(2);
    file.length = fread(file.at, 1, MOST / 2, in);
    fclose(in);
    return file;
}

static size_t spoil(uint8_t *at, size_t length, const struct file *from) {
    for (uint64_t turns = 1 + draw(6); turns-- > 0;) {
        size_t place = draw(length + 1), size = 1 + draw(draw(2) ? 8 : 200), start = draw(from->length);
        if (size > from->length - start) size = from->length - start;
        switch (draw(4)) {
            case 0:
                if (place < length) at[place] = (uint8_t)draw(256);
                break;
            case 1:
                if (size > length - place) size = length - place;
                memmove(at + place, at + place + size, length - place - size), length -= size;
                break;
            default:
                if (length + size >= MOST / 2) break;
                memmove(at + place + size, at + place, length - place), memcpy(at + place, from->at + start, size), length += size;
        }
    }
    return length;
}

static int blind(int count, char **words) {
    double seconds = atof(words[0]);
    static uint8_t now_made[MOST];
    time_t end = time(NULL) + (time_t)seconds;
    struct file *files = malloc((size_t)count * sizeof *files);
    long calls = 0;
    state = strtoull(words[1], NULL, 10) * 2 + 1;
    for (int i = 3; i < count; i++) files[i - 3] = read_file(words[i]);
    for (; time(NULL) < end; calls++) {
        struct file one = files[draw((uint64_t)count - 3)];
        memcpy(now_made, one.at, one.length);
        size_t length = spoil(now_made, one.length, &files[draw((uint64_t)count - 3)]);
        FILE *out = fopen(words[2], "wb");
        fwrite(now_made, 1, length, out), fclose(out);
        alarm(2);
        make(now_made, length);
        alarm(0);
    }
    printf("%ld calls\n", calls);
    return 0;
}

int main(int count, char **words) {
    signal(SIGPIPE, SIG_IGN);
    if (count > 5 && !strcmp(words[1], "--blind")) return blind(count - 2, words + 2);
    for (int i = 1; i < count; i++) {
        struct file file = read_file(words[i]);
        alarm(2), make(file.at, file.length), alarm(0);
        free(file.at);
    }
#ifdef __AFL_FUZZ_TESTCASE_LEN
    if (count == 1) {
        __AFL_INIT();
        uint8_t *input = __AFL_FUZZ_TESTCASE_BUF;
        while (__AFL_LOOP(2000)) {
            size_t length = (size_t)__AFL_FUZZ_TESTCASE_LEN;
            if (length < MOST / 2) make(input, length);
        }
    }
#endif
    return 0;
}
