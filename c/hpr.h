/* hpr in process: words and files go in as bytes, and texts or data come out into rooms of the caller.
 *
 * c/build makes libhpr.a, libhpr.so and hpr.pc. The code is for Linux on x86-64, for processors of level x86-64-v2 and above. No
 * call opens a file, a stream or a thread, and none keeps anything behind it: any number of threads may call at once.
 *
 * Any bytes, names, lengths and sizes are fine, and each call ends. What a caller owes beside that, since nothing checks it:
 *
 *  - a pointer names as many bytes (of `lengths`, as many numbers) as the length behind it says, or is null where that is 0;
 *    a length is below 2^63;
 *  - `sizes` and `size` are not null; `out`, `err`, `sizes` and `size` overlap neither each other nor anything that is handed in;
 *    no other thread changes meanwhile what a call was handed, or touches its rooms;
 *  - malloc, realloc and free are one allocator, and give blocks that are aligned as C says;
 *  - the thread has HPR_STACK bytes of stack left: where there is too little, the process dies by a fault of the stack;
 *  - no call is made from a signal handler, nor from the forked child of a process that had several threads.
 */
#ifndef HPR_H
#define HPR_H

#include <stddef.h>
#include <stdint.h>

#ifdef __cplusplus
extern "C" {
#endif

/* The version of this header; hpr_version() tells that of the library. */
#define HPR_VERSION "1.0.0"
#define HPR_VERSION_NUMBER 10000

/* Four times the stack that the deepest call took that checks/embed makes. */
#define HPR_STACK (256 * 1024)

/* How a call ended: the exit statuses of the program, but 6, which never comes, and 64. */
enum hpr_status {
    HPR_DONE = 0,
    HPR_INTERFERENCE = 1, /* the variants interfere: `out` is the text of all conflicts */
    HPR_NO_PROGRAM = 2,   /* no program has the merged graph */
    HPR_SPENT = 3,        /* the budget of tries is spent */
    HPR_REFUSED = 4,      /* a file, a word of a state, a point or a command of a script is refused: `err` says why */
    HPR_ABSENT = 5,       /* a word names a file that was not handed in */
    HPR_WORDS = 7,        /* the words are no call: `err` is the usage */
    HPR_MEMORY = 8,       /* there was no memory: `out` is empty */
    HPR_NOT_ENDED = 9,    /* a run did not end normally */
    HPR_REJECTED = 10,    /* an offered program hasn't the merged graph */
    HPR_FORM = 64         /* what was handed in hasn't the form that hpr_call asks for: no text is told */
};

/* How many bytes the two texts have, also where a room had space for less. */
typedef struct hpr_sizes {
    size_t out;
    size_t err;
} hpr_sizes;

/* The version of the library: 10000 for 1.0.0, two digits each for the second and the third number. */
uint32_t hpr_version(void);

/* Integrates two variants with their base, which messages name base, a and b, and returns HPR_DONE to HPR_REFUSED, or HPR_MEMORY.
 *
 * A room takes the first bytes of its text, as many as it has space for, and its other bytes stay as they were. Where sizes->out
 * is above out_room, or sizes->err above err_room, the same call with that much room gives the whole texts. */
uint32_t hpr_integrate(const uint8_t *base, size_t base_len, const uint8_t *a, size_t a_len, const uint8_t *b, size_t b_len,
                       uint8_t *out, size_t out_room, uint8_t *err, size_t err_room, hpr_sizes *sizes);

/* Any command of the program, over files that are handed in. Each word and each name is UTF-8 and ends with a zero byte; there
 * are as many lengths as names, and the bytes of the files stand one after another. Of two files with one name the first counts.
 * Rooms and sizes are as above. */
uint32_t hpr_call(const uint8_t *words, size_t words_len, const uint8_t *names, size_t names_len,
                  const size_t *lengths, size_t lengths_len, const uint8_t *bytes, size_t bytes_len,
                  uint8_t *out, size_t out_room, uint8_t *err, size_t err_room, hpr_sizes *sizes);

/* The answer of integrate, affected, graph, run or verify as data: an object of JSON and a newline, whose members docs/calling.md
 * names. What is handed in, and the status, are those of hpr_call; other commands are HPR_WORDS. Where the status is HPR_FORM or
 * HPR_MEMORY the text is empty.
 *
 * The room takes the first bytes of the text, as above, and *size is how many it has. */
uint32_t hpr_data(const uint8_t *words, size_t words_len, const uint8_t *names, size_t names_len,
                  const size_t *lengths, size_t lengths_len, const uint8_t *bytes, size_t bytes_len,
                  uint8_t *out, size_t out_room, size_t *size);

/* Where the parts of a program stand in its text, each from the first byte of its tag to the last byte of its `;`, `fi` or `od`: an
 * array of JSON, in the order in which they begin, of objects {"byte":FIRST,"length":BYTES,"tag":"1.2"}, and a newline. The first
 * byte of a text is 0. HPR_REFUSED: the text spells no program, and `out` is the object of hpr_data for a refused file, with the
 * name `text`. HPR_MEMORY: there was no memory, and the text is empty. Room and size are as for hpr_data. */
uint32_t hpr_places(const uint8_t *text, size_t len, uint8_t *out, size_t out_room, size_t *size);

#ifdef __cplusplus
}
#endif
#endif
