// What the kit's own C has for x86-64 of the functions that the program calls, for aarch64: memory, words and the number of an error, of
// the C library. The kit gives it for x86-64 alone, compiled (c/liblibc_c.a, c/libos_c.a). Nothing proves this file; tests/desk_arm.py
// holds it against the kit's.
#include <errno.h>
#include <stddef.h>
#include <stdint.h>
#include <stdlib.h>
#include <sys/types.h>

// ---- memory

// {whether there was memory, the block; where there was none, a place of which nothing is read}
struct tried {
  uint64_t ok;
  void *at;
};

static struct tried tried(void *at) {
  static char nothing;
  return at ? (struct tried){1, at} : (struct tried){0, &nothing};
}

// A block of no bytes has a place of its own, too. (malloc's blocks are aligned to 16 bytes, the most that is asked for.)
struct tried rattle_alloc(size_t bytes, size_t align) { return tried(malloc(bytes ? bytes : align)); }

struct tried rattle_realloc(void *old, size_t used, size_t bytes, size_t align) {
  (void)used;
  return tried(realloc(old, bytes ? bytes : align));
}

void rattle_dealloc(void *old) { free(old); }

// ---- words

static int count;
static char **words;

static void keep(int given, char **all) {
  count = given;
  words = all;
}

// The C library hands the words to what stands here, before `main`.
__attribute__((section(".init_array"), used)) static void (*const keeper)(int, char **) = keep;

size_t rattle_arg_count(void) { return (size_t)count; }

// Writes the word of a number without its ending 0, and answers its length: -1 where there is none, -2 where there isn't room for it.
ssize_t rattle_arg(size_t number, char *to, size_t room) {
  if (number >= (size_t)count || !words[number]) return -1;
  const char *word = words[number];
  size_t length = 0;
  for (; word[length]; length++) {
    if (length == room) return -2;
    to[length] = word[length];
  }
  return (ssize_t)length;
}

// ---- the number of the last error

int rattle_errno(void) { return errno; }

void rattle_set_errno(int number) { errno = number; }
