/* An allocator that refuses one request: the one whose number, from 1, stands in HPR_REFUSE. At the end it writes to the file that HPR_COUNT
   names how many requests there were, and to the file that HPR_MARKS names, a line for each request for exactly HPR_MARK bytes, how many
   there were since the one before. It is put before the C library's by LD_PRELOAD. */
#include <errno.h>
#include <stdio.h>
#include <stdlib.h>

extern void *__libc_malloc(size_t);
extern void *__libc_calloc(size_t, size_t);
extern void *__libc_realloc(void *, size_t);
extern void *__libc_memalign(size_t, size_t);

enum { MOST_MARKS = 1000 };

static long requests;
static long refused = -1;
static size_t mark;
static long since_mark;
static long marks[MOST_MARKS];
static int mark_count;
static int counting;

static long number_in(const char *name) {
  const char *number = getenv(name);
  return number ? atol(number) : 0;
}

__attribute__((constructor)) static void begin(void) {
  refused = number_in("HPR_REFUSE");
  mark = (size_t)number_in("HPR_MARK");
  counting = 1;
}

/* Writes the numbers, each on a line, to the file that the variable names, if it names one. */
static void write_numbers(const char *variable, const long *numbers, int count) {
  const char *name = getenv(variable);
  FILE *file = name ? fopen(name, "w") : NULL;
  if (!file) return;
  for (int at = 0; at < count; at++) fprintf(file, "%ld\n", numbers[at]);
  fclose(file);
}

__attribute__((destructor)) static void end(void) {
  counting = 0;
  write_numbers("HPR_COUNT", &requests, 1);
  write_numbers("HPR_MARKS", marks, mark_count);
}

static void count_for_marks(size_t size) {
  if (size != mark) {
    since_mark += 1;
    return;
  }
  if (mark_count < MOST_MARKS) marks[mark_count++] = since_mark;
  since_mark = 0;
}

static int refuses(size_t size) {
  if (!counting) return 0;
  requests += 1;
  count_for_marks(size);
  if (requests != refused) return 0;
  errno = ENOMEM;
  return 1;
}

void *malloc(size_t size) { return refuses(size) ? NULL : __libc_malloc(size); }
void *calloc(size_t count, size_t size) { return refuses(count * size) ? NULL : __libc_calloc(count, size); }
void *realloc(void *old, size_t size) { return refuses(size) ? NULL : __libc_realloc(old, size); }
void *memalign(size_t align, size_t size) { return refuses(size) ? NULL : __libc_memalign(align, size); }
void *aligned_alloc(size_t align, size_t size) { return refuses(size) ? NULL : __libc_memalign(align, size); }
int posix_memalign(void **into, size_t align, size_t size) {
  void *found = refuses(size) ? NULL : __libc_memalign(align, size);
  if (!found) return ENOMEM;
  *into = found;
  return 0;
}
