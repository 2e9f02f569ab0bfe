/* Rough callers of hpr in process, for checks/callers. Each way ends with status 0, or says what is wrong:
 *
 *     callers forms SECONDS SEED          made words, names, lengths and files: what is handed in can't be written to, and lies before
 *                                         pages that can't be touched, as each room does
 *     callers huge                        long files, words and rooms, and an address space that is too small for them
 *     callers threads THREADS CALLS       mixed calls from several threads at once
 *     callers fork FORKS BASE A B         the process is forked in the middle of a call, which parent and child end alike
 *     callers signals SIGNALS BASE A B    a handler returns in the middle of a call
 *     callers jumps JUMPS BASE A B        a handler jumps out of a call, and the next one is as ever
 *     callers loads TIMES LIBRARY         the shared library is loaded, called and let go
 *
 * What a call is to answer is what it answers when nothing disturbs it; checks/embed compares that with the program. */
#include <dlfcn.h>
#include <errno.h>
#include <pthread.h>
#include <setjmp.h>
#include <signal.h>
#include <stdio.h>
#include <stdlib.h>
#include <string.h>
#include <sys/mman.h>
#include <sys/resource.h>
#include <sys/time.h>
#include <sys/wait.h>
#include <time.h>
#include <unistd.h>

#include "hpr.h"

static int wrong;

static void no(const char *what, long got) {
    if (++wrong <= 20) fprintf(stderr, "callers: %s: %ld\n", what, got);
}

/* ---- memory: taken from one block while calls are jumped out of, since a jump out of malloc may leave it as no caller may find it */

static uint8_t *block;
static size_t block_size, used;

void *__real_malloc(size_t), *__real_realloc(void *, size_t);
void __real_free(void *);

void *__wrap_malloc(size_t size) {
    if (!block) return __real_malloc(size);
    if (size > block_size - used - 32) return NULL;
    size_t *at = (size_t *)(block + used);
    *at = size, used += 16 + (size + 15) / 16 * 16;
    return at + 2;
}

static int is_inside(void *at) { return block && (uint8_t *)at >= block && (uint8_t *)at < block + block_size; }

void *__wrap_realloc(void *old, size_t size) {
    if (!block || (old && !is_inside(old))) return __real_realloc(old, size);
    void *made = __wrap_malloc(size);
    if (made && old) memcpy(made, old, ((size_t *)old)[-2] < size ? ((size_t *)old)[-2] : size);
    return made;
}

void __wrap_free(void *old) {
    if (!is_inside(old)) __real_free(old);
}

/* ---- pages */

static size_t page;

/* So many bytes that end where a page begins that can't be touched. */
static uint8_t *before_edge(size_t length) {
    size_t pages = (length + page - 1) / page * page;
    uint8_t *all = mmap(NULL, pages + page, PROT_READ | PROT_WRITE, MAP_PRIVATE | MAP_ANONYMOUS, -1, 0);
    if (all == MAP_FAILED || mprotect(all + pages, page, PROT_NONE)) exit(3);
    return all + pages - length;
}

static void let_go(const void *at, size_t length) {
    size_t pages = (length + page - 1) / page * page;
    munmap((uint8_t *)at + length - pages, pages + page);
}

/* A copy that can be read alone. */
static const uint8_t *handed(const void *bytes, size_t length) {
    size_t pages = (length + page - 1) / page * page;
    uint8_t *at = before_edge(length);
    if (length) memcpy(at, bytes, length);
    if (pages) mprotect(at + length - pages, pages, PROT_READ);
    return at;
}

/* ---- made calls */

static uint64_t state;

static uint64_t draw(uint64_t below) {
    state ^= state << 13, state ^= state >> 7, state ^= state << 17;
    return state % below;
}

#define TAKEN(text) {text, sizeof text - 1}
static const struct piece {
    const char *at;
    size_t length;
} pieces[] = {
    TAKEN("integrate"), TAKEN("run"), TAKEN("graph"), TAKEN("slice"), TAKEN("affected"), TAKEN("verify"), TAKEN("trial"), TAKEN("edit"),
    TAKEN("tag"), TAKEN("sample"), TAKEN("a"), TAKEN("b"), TAKEN("f"), TAKEN("--json"), TAKEN("--steps"), TAKEN("3"), TAKEN("entry"),
    TAKEN("final:x"), TAKEN("--author"), TAKEN("1"), TAKEN(""), TAKEN("\xff"), TAKEN("\xc0\x80"), TAKEN("\xed\xa0\x80"),
    TAKEN("\xf4\x90\x80\x80"), TAKEN("\xe2\x82"), TAKEN("\xc3\xa9"), TAKEN("x=1"), TAKEN("--"), TAKEN("-"), TAKEN("18446744073709551616"),
};

static const struct piece texts[] = {
    TAKEN("program\nissued 1:1\n1.1: x := 1;\nend(x)\n"), TAKEN("program\nissued 1:1\n1.1: x := 2;\nend(x)\n"),
    TAKEN("program\nissued 1:2\n1.1: while x < 3 do\n1.2: x := x + 1;\nod\nend(x, out)\n"), TAKEN("program x := 1; end(x)"),
    TAKEN("program 1.1: a[0] := 1 / 0; end(a[])"), TAKEN(""), TAKEN("\0"), TAKEN("program end()\xff"), TAKEN("set 1.1 x := 3;\n"),
};

/* words as someone would write them, and the names of three files */
static const struct piece usual[] = {
    TAKEN("integrate\0a\0b\0f\0"), TAKEN("run\0f\0"), TAKEN("graph\0f\0--json\0"), TAKEN("slice\0f\0entry\0"), TAKEN("affected\0a\0b\0"),
    TAKEN("verify\0a\0b\0f\0a\0"), TAKEN("trial\0a\0b\0f\0x=1\0"), TAKEN("tag\0f\0--author\0" "1\0"), TAKEN("edit\0a\0b\0--author\0" "1\0"),
    TAKEN("run\0a\0--steps\0" "3\0"), TAKEN("sample\0" "7\0" "20\0"), TAKEN("integrate\0a\0b\0f\0a\0b\0"),
};
static const struct piece named = TAKEN("a\0b\0f\0");

struct call {
    uint8_t words[256], names[128], bytes[1024];
    size_t words_len, names_len, bytes_len, lengths[8], count;
};

static size_t put(uint8_t *to, size_t at, size_t room, struct piece piece) {
    if (at + piece.length + 1 > room) return at;
    if (piece.length) memcpy(to + at, piece.at, piece.length);
    if (draw(40)) to[at + piece.length++] = 0;
    return at + piece.length;
}

static struct call made(void) {
    struct call call = {.count = 0};
    int is_usual = draw(2) != 0;
    size_t count = is_usual ? 3 : draw(5), pieces_count = sizeof pieces / sizeof *pieces;
    if (is_usual) {
        struct piece words = usual[draw(sizeof usual / sizeof *usual)];
        memcpy(call.words, words.at, words.length), memcpy(call.names, named.at, named.length);
        call.words_len = words.length, call.names_len = named.length;
    }
    for (size_t i = is_usual ? !draw(8) : draw(6); i-- > 0;)
        call.words_len = put(call.words, call.words_len, sizeof call.words, pieces[draw(pieces_count)]);
    for (size_t i = 0; i < count; i++) {
        struct piece text = texts[draw(sizeof texts / sizeof *texts)];
        if (!is_usual)
            call.names_len = put(call.names, call.names_len, sizeof call.names, pieces[draw(4) ? 10 + draw(3) : draw(pieces_count)]);
        memcpy(call.bytes + call.bytes_len, text.at, text.length);
        call.bytes_len += text.length, call.lengths[call.count++] = text.length;
    }
    /* now and then lengths that aren't those of the files */
    if (call.count && !draw(8)) call.lengths[draw(call.count)] = draw(2) ? draw(200) : ~(size_t)0 >> draw(64);
    if (!draw(30)) call.count = draw(8);
    if (call.bytes_len && !draw(10)) call.bytes[draw(call.bytes_len)] = (uint8_t)draw(256);
    return call;
}

struct answer {
    uint32_t status;
    hpr_sizes sizes;
    uint64_t sum;
};

static uint64_t sum_of(const uint8_t *at, size_t length, uint64_t sum) {
    for (size_t i = 0; i < length; i++) sum = (sum ^ at[i]) * 0x100000001b3;
    return sum;
}

static void is_untouched(const uint8_t *room, size_t length, size_t taken) {
    for (size_t i = taken; i < length; i++)
        if (room[i] != '#') no("a byte of a room behind its text was written", (long)i);
}

/* The call over copies before the edges of pages, or over what is there. Also as data, whose status is to be the same. */
static struct answer answer_of(const struct call *call, size_t out_room, size_t err_room, int is_edged) {
    struct answer answer = {.sum = 0xcbf29ce484222325};
    const uint8_t *words = call->words, *names = call->names, *bytes = call->bytes;
    const size_t *lengths = call->lengths;
    static _Thread_local uint8_t rooms[3][8192];
    uint8_t *out = rooms[0], *err = rooms[1], *data = rooms[2];
    size_t lengths_size = call->count * sizeof *lengths, size = 0;
    if (is_edged) {
        words = handed(words, call->words_len), names = handed(names, call->names_len), bytes = handed(bytes, call->bytes_len);
        lengths = (const size_t *)handed(lengths, lengths_size);
        out = before_edge(out_room), err = before_edge(err_room), data = before_edge(out_room);
    }
    memset(out, '#', out_room), memset(err, '#', err_room), memset(data, '#', out_room);
    answer.status = hpr_call(words, call->words_len, names, call->names_len, lengths, call->count, bytes, call->bytes_len, out, out_room,
                             err, err_room, &answer.sizes);
    uint32_t told = hpr_data(words, call->words_len, names, call->names_len, lengths, call->count, bytes, call->bytes_len, data, out_room,
                             &size);
    is_untouched(out, out_room, answer.sizes.out), is_untouched(err, err_room, answer.sizes.err), is_untouched(data, out_room, size);
    answer.sum = sum_of(out, out_room, sum_of(err, err_room, sum_of(data, out_room, answer.sum)));
    if (told != answer.status && told != HPR_WORDS) no("data has another status than the call", (long)told);
    if (told == HPR_FORM && size) no("a form that is none has data", (long)size);
    if (is_edged) {
        let_go(words, call->words_len), let_go(names, call->names_len), let_go(bytes, call->bytes_len), let_go(lengths, lengths_size);
        let_go(out, out_room), let_go(err, err_room), let_go(data, out_room);
    }
    return answer;
}

static int is_same(struct answer a, struct answer b) {
    return a.status == b.status && a.sizes.out == b.sizes.out && a.sizes.err == b.sizes.err && a.sum == b.sum;
}

/* Whether a status is one that the header names; 6 never comes. */
static int is_status(uint32_t status) { return status == HPR_FORM || (status <= HPR_REJECTED && status != 6); }

static double now(void) {
    struct timespec t;
    clock_gettime(CLOCK_MONOTONIC, &t);
    return (double)t.tv_sec + (double)t.tv_nsec * 1e-9;
}

static int try_forms(double seconds, uint64_t seed) {
    long calls = 0, counts[65] = {0};
    state = seed * 2 + 1;
    for (double end = now() + seconds; now() < end; calls++) {
        uint64_t began = state;
        struct call call = made();
        size_t out_room = draw(2) ? draw(100) : 4096, err_room = draw(2) ? draw(100) : 2048;
        int had = wrong;
        struct answer one = answer_of(&call, out_room, err_room, 1), other = answer_of(&call, out_room, err_room, 0);
        if (!is_status(one.status)) no("a status that the header doesn't have", (long)one.status);
        else counts[one.status]++;
        if (!is_same(one, other)) no("a call that is made again answers otherwise", (long)calls);
        size_t size;
        const uint8_t *text = handed(call.bytes, call.bytes_len);
        uint8_t *out = before_edge(out_room);
        uint32_t places = hpr_places(text, call.bytes_len, out, out_room, &size);
        if (places != HPR_DONE && places != HPR_REFUSED) no("hpr_places has the status", (long)places);
        let_go(text, call.bytes_len), let_go(out, out_room);
        if (wrong != had) fprintf(stderr, "callers: that was call %ld, drawn from %llu\n", calls, (unsigned long long)began);
    }
    printf("%ld calls of made forms:", calls);
    for (int i = 0; i < 65; i++)
        if (counts[i]) printf(" %ld with status %d", counts[i], i);
    printf("\n");
    return wrong;
}

/* ---- long ones */

static uint8_t *reserved(size_t length, int way) {
    uint8_t *at = mmap(NULL, length, way, MAP_PRIVATE | MAP_ANONYMOUS | MAP_NORESERVE, -1, 0);
    return at == MAP_FAILED ? NULL : at;
}

static const uint8_t *bytes_of(const char *text) { return (const uint8_t *)text; }

static int try_huge(void) {
    static const char small[] = "program\nissued 1:1\n1.1: x := 1;\nend(x)\n";
    size_t n = sizeof small - 1, file = (size_t)8 << 30, room = (size_t)64 << 30, size, words_len = (size_t)16 << 20;
    uint8_t *zeros = reserved(file, PROT_READ), *wide = reserved(room, PROT_READ | PROT_WRITE), err[256];
    hpr_sizes sizes;
    if (!zeros || !wide) return no("there are no 72 GiB of addresses", errno), wrong;
    double begun = now();
    uint32_t status = hpr_integrate(zeros, file, bytes_of(small), n, bytes_of(small), n, NULL, 0, err, sizeof err, &sizes);
    if (status != HPR_REFUSED) no("a file of 8 GiB has the status", (long)status);
    status = hpr_call(bytes_of("run\0f"), 6, bytes_of("f"), 2, &file, 1, zeros, file, NULL, 0, err, sizeof err, &sizes);
    if (status != HPR_REFUSED) no("a handed file of 8 GiB has the status", (long)status);
    if ((status = hpr_places(zeros, file, NULL, 0, &size)) != HPR_REFUSED) no("places of 8 GiB have the status", (long)status);
    printf("files of 8 GiB: %.2f s\n", now() - begun);
    status = hpr_integrate(bytes_of(small), n, bytes_of(small), n, bytes_of(small), n, wide, room, NULL, 0, &sizes);
    unsigned char is_there[2];
    mincore(wide + 2 * page, 2 * page, is_there);
    if (status != HPR_DONE || sizes.out != n || memcmp(wide, small, n)) no("into a room of 64 GiB it has the status", (long)status);
    if ((is_there[0] | is_there[1]) & 1) no("a page of a room behind its text was touched", 2);
    begun = now();
    status = hpr_call(zeros, words_len, NULL, 0, NULL, 0, NULL, 0, NULL, 0, err, sizeof err, &sizes);
    if (status != HPR_WORDS && status != HPR_MEMORY) no("16,777,216 empty words have the status", (long)status);
    printf("16,777,216 empty words: %.2f s\n", now() - begun);
    size_t *none = (size_t *)reserved((size_t)8 << 20, PROT_READ);
    status = hpr_call(bytes_of("run\0f"), 6, zeros, 1 << 20, none, 1 << 20, NULL, 0, NULL, 0, err, sizeof err, &sizes);
    if (status != HPR_ABSENT && status != HPR_MEMORY) no("1,048,576 files without a name have the status", (long)status);
#ifdef WITH_SANITIZER
    return wrong; /* which takes more addresses than the limit below */
#endif
    /* where the address space is small there is no memory, and the process goes on */
    pid_t child = fork();
    if (!child) {
        struct rlimit limit = {room + file + ((size_t)300 << 20), room + file + ((size_t)300 << 20)};
        setrlimit(RLIMIT_AS, &limit);
        status = hpr_call(zeros, (size_t)64 << 20, NULL, 0, NULL, 0, NULL, 0, NULL, 0, err, sizeof err, &sizes);
        int is_small = hpr_integrate(bytes_of(small), n, bytes_of(small), n, bytes_of(small), n, NULL, 0, NULL, 0, &sizes) == HPR_DONE;
        _exit(status == HPR_MEMORY && is_small ? 0 : 1);
    }
    int ended;
    waitpid(child, &ended, 0);
    if (ended) no("67,108,864 empty words in a small address space: it ends with", ended);
    return wrong;
}

/* ---- threads */

struct job {
    struct call *calls;
    struct answer *wanted;
    long count, rounds, first, other;
};

static void *call_each(void *arg) {
    struct job *job = arg;
    for (long i = 0; i < job->rounds; i++) {
        long at = (job->first + i * 7) % job->count;
        job->other += !is_same(answer_of(&job->calls[at], 2048, 1024, 0), job->wanted[at]);
    }
    return NULL;
}

static int try_threads(int threads, long rounds) {
    enum { COUNT = 500 };
    static struct call calls[COUNT];
    static struct answer wanted[COUNT];
    struct job jobs[64];
    pthread_t ids[64];
    state = 88172645463325252;
    for (int i = 0; i < COUNT; i++) calls[i] = made(), wanted[i] = answer_of(&calls[i], 2048, 1024, 0);
    for (int i = 0; i < threads; i++) {
        jobs[i] = (struct job){calls, wanted, COUNT, rounds, i * 31, 0};
        if (pthread_create(&ids[i], NULL, call_each, &jobs[i])) return 2;
    }
    for (int i = 0; i < threads; i++) {
        pthread_join(ids[i], NULL);
        if (jobs[i].other) no("calls of a thread that answer otherwise", jobs[i].other);
    }
    printf("%ld mixed calls by %d threads\n", threads * rounds, threads);
    return wrong;
}

/* ---- in the middle */

struct file {
    uint8_t *at;
    size_t length;
};

static struct file three[3];
static uint8_t out[1 << 16], right[1 << 16];
static hpr_sizes whole;
static uint32_t ends_with;

static void read_three(char **names) {
    for (int i = 0; i < 3; i++) {
        FILE *in = fopen(names[i], "rb");
        if (!in) exit(2);
        three[i].at = __real_malloc(1 << 20), three[i].length = fread(three[i].at, 1, 1 << 20, in);
        fclose(in);
    }
}

static uint32_t integrate(uint8_t *to, hpr_sizes *sizes) {
    return hpr_integrate(three[0].at, three[0].length, three[1].at, three[1].length, three[2].at, three[2].length, to, sizeof out, NULL, 0,
                         sizes);
}

static int is_right(uint32_t status, const hpr_sizes *sizes) {
    return status == ends_with && sizes->out == whole.out && !memcmp(out, right, whole.out);
}

static volatile sig_atomic_t caught, is_child, in_call;
static sigjmp_buf back;

static void go_on(int number) {
    (void)number;
    caught++;
}

static void part(int number) {
    (void)number;
    if (!in_call || is_child) return;
    caught++;
    pid_t child = _Fork();
    if (!child) is_child = 1;
}

static void jump(int number) {
    (void)number;
    if (!in_call) return;
    caught++, in_call = 0;
    siglongjmp(back, 1);
}

static void when(void (*handler)(int), int flags) {
    struct sigaction action = {.sa_handler = handler, .sa_flags = flags};
    sigaction(SIGALRM, &action, NULL);
}

/* A signal comes after so many microseconds, and then again and again where it is to. */
static void alarm_in(long after, int is_again) {
    struct itimerval timer = {{0, is_again ? after : 0}, {0, after}};
    setitimer(ITIMER_REAL, &timer, NULL);
}

/* How many microseconds one call takes. */
static long takes(void) {
    double begun = now();
    ends_with = integrate(right, &whole);
    for (int i = 0; i < 20; i++) integrate(out, &whole);
    long taken = (long)((now() - begun) / 21 * 1e6);
    return taken < 20 ? 20 : taken;
}

static int try_signals(long signals, char **names) {
    read_three(names);
    long taken = takes(), calls = 0;
    when(go_on, 0);
    alarm_in(37, 1);
    for (double end = now() + 60; caught < signals && now() < end; calls++) {
        hpr_sizes sizes;
        memset(out, 0, sizeof out);
        uint32_t status = integrate(out, &sizes);
        if (!is_right(status, &sizes)) no("beside a signal a call ends with", (long)status);
    }
    alarm_in(0, 0);
    printf("%ld signals in %ld calls of %ld microseconds\n", (long)caught, calls, taken);
    return wrong;
}

static int try_forks(long forks, char **names) {
    read_three(names);
    long taken = takes(), other = 0;
    int ended;
    state = 88172645463325252;
    when(part, 0);
    for (double end = now() + 60; caught < forks && now() < end;) {
        hpr_sizes sizes;
        memset(out, 0, sizeof out);
        in_call = 1, alarm_in(1 + (long)draw((uint64_t)taken), 0);
        uint32_t status = integrate(out, &sizes);
        in_call = 0, alarm_in(0, 0);
        int is_as_ever = is_right(status, &sizes);
        if (is_child) _exit(!is_as_ever || integrate(out, &sizes) != ends_with || !is_right(ends_with, &sizes));
        if (!is_as_ever) no("a call in which the process was forked ends with", (long)status);
        while (waitpid(-1, &ended, WNOHANG) > 0) other += ended != 0;
    }
    while (waitpid(-1, &ended, 0) > 0) other += ended != 0;
    if (other) no("children in which the call ended otherwise", other);
    printf("%ld forks in the middle of calls of %ld microseconds\n", (long)caught, taken);
    return wrong;
}

static int try_jumps(long jumps, char **names) {
    read_three(names);
    long taken = takes();
    block_size = (size_t)256 << 20;
    state = 88172645463325252;
    when(jump, SA_NODEFER);
    uint8_t *memory = reserved(block_size, PROT_READ | PROT_WRITE);
    double end = now() + 60;
    while (caught < jumps && now() < end) {
        hpr_sizes sizes;
        used = 0, block = memory;
        if (!sigsetjmp(back, 1)) {
            in_call = 1, alarm_in(1 + (long)draw((uint64_t)taken), 0);
            integrate(out, &sizes);
            in_call = 0;
        }
        alarm_in(0, 0);
        used = 0;
        memset(out, 0, sizeof out);
        uint32_t status = integrate(out, &sizes);
        block = NULL;
        if (!is_right(status, &sizes)) no("behind a jump a call ends with", (long)status);
    }
    printf("%ld jumps out of calls of %ld microseconds\n", (long)caught, taken);
    return wrong;
}

/* ---- the shared library */

typedef uint32_t versions(void);

static int try_loads(long times, const char *name) {
    for (long i = 0; i < times; i++) {
        void *library = dlopen(name, RTLD_NOW | RTLD_LOCAL);
        if (!library) return fprintf(stderr, "callers: %s\n", dlerror()), 1;
        versions *version;
        *(void **)&version = dlsym(library, "hpr_version");
        if (!version || version() != HPR_VERSION_NUMBER) no("the version of the loaded library", version ? (long)version() : -1);
        if (dlclose(library)) no("the library isn't let go", i);
    }
    if (dlopen(name, RTLD_NOW | RTLD_NOLOAD)) no("the library is there once it was let go", times);
    printf("loaded and let go %ld times\n", times);
    return wrong;
}

int main(int count, char **words) {
    page = (size_t)sysconf(_SC_PAGESIZE);
    const char *way = count > 1 ? words[1] : "";
    if (count == 4 && !strcmp(way, "forms")) return try_forms(atof(words[2]), strtoull(words[3], NULL, 10)) != 0;
    if (count == 2 && !strcmp(way, "huge")) return try_huge() != 0;
    if (count == 4 && !strcmp(way, "threads") && atoi(words[2]) <= 64) return try_threads(atoi(words[2]), atol(words[3])) != 0;
    if (count == 6 && !strcmp(way, "fork")) return try_forks(atol(words[2]), words + 3) != 0;
    if (count == 6 && !strcmp(way, "signals")) return try_signals(atol(words[2]), words + 3) != 0;
    if (count == 6 && !strcmp(way, "jumps")) return try_jumps(atol(words[2]), words + 3) != 0;
    if (count == 4 && !strcmp(way, "loads")) return try_loads(atol(words[2]), words[3]) != 0;
    fprintf(stderr, "usage: callers forms SECONDS SEED | huge | threads THREADS CALLS | loads TIMES LIBRARY\n"
                    "       callers fork|signals|jumps COUNT BASE A B\n");
    return 2;
}
