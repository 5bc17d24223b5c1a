// What the program's module of WebAssembly needs and the page's JavaScript can't give: memory, and arithmetic of 128 bits. Nothing
// proves this file: it stands where the C library and the compiler's own library stand in the program for Linux. tests/desk_web.py
// has a test of each function.
typedef unsigned long long u64;
typedef unsigned __int128 u128;
typedef __UINTPTR_TYPE__ word;

// ---- memory

// A block is a head of 16 bytes, which has the power of two that is its size, and then its bytes, 16 or more. A block that was given
// back is kept in a list of those of its size.
extern unsigned char __heap_base;
static word top;
static word kept[32];
enum { HEAD = 16, LEAST = 4, MOST = 30, PAGE = 16 };

// {whether there was memory, the block}
struct tried { u64 ok, at; };

static word block(u64 bytes) {
  unsigned power = LEAST;
  while (power <= MOST && (u64)1 << power < bytes) power++;
  if (power > MOST) return 0;
  word at = kept[power];
  if (at) {
    kept[power] = *(word *)at;
    return at;
  }
  if (!top) top = ((word)&__heap_base + HEAD - 1) & ~(word)(HEAD - 1);
  u64 end = (u64)top + HEAD + ((u64)1 << power);
  u64 lacking = end - ((u64)__builtin_wasm_memory_size(0) << PAGE);
  if ((long long)lacking > 0 && __builtin_wasm_memory_grow(0, (word)((lacking >> PAGE) + 1)) == (word)-1) return 0;
  at = top + HEAD;
  *(u64 *)(at - HEAD) = power;
  top = (word)end;
  return at;
}

static void give_back(word at) {
  u64 power = *(u64 *)(at - HEAD);
  *(word *)at = kept[power];
  kept[power] = at;
}

// The three functions of the kit's library (libc/src/heap.rt). Blocks are aligned to 16 bytes, the most that is asked for.
struct tried rattle_alloc(u64 bytes, u64 align) {
  word at = align > HEAD ? 0 : block(bytes);
  return (struct tried){at != 0, at};
}

struct tried rattle_realloc(unsigned char *old, u64 used, u64 bytes, u64 align) {
  if (bytes <= (u64)1 << *(u64 *)((word)old - HEAD)) return (struct tried){1, (word)old};
  struct tried new = rattle_alloc(bytes, align);
  if (new.ok) {
    __builtin_memcpy((void *)(word)new.at, old, (word)used);
    give_back((word)old);
  }
  return new;
}

void rattle_dealloc(unsigned char *old) { give_back((word)old); }

void *malloc(u64 bytes) { return (void *)block(bytes); }

void free(void *old) {
  if (old) give_back((word)old);
}

// ---- 128 bits, as halves: arithmetic of 128 bits would call these functions again

#define LOW(a) ((u64)(a))
#define HIGH(a) ((u64)((a) >> 64))
#define PAIR(high, low) ((u128)(high) << 64 | (low))

u128 __ashlti3(u128 a, int by) {
  if (by >= 64) return PAIR(LOW(a) << (by - 64), 0);
  return by ? PAIR(HIGH(a) << by | LOW(a) >> (64 - by), LOW(a) << by) : a;
}

u128 __lshrti3(u128 a, int by) {
  if (by >= 64) return HIGH(a) >> (by - 64);
  return by ? PAIR(HIGH(a) >> by, LOW(a) >> by | HIGH(a) << (64 - by)) : a;
}

u128 __multi3(u128 a, u128 b) {
  u64 a0 = (unsigned)LOW(a), a1 = LOW(a) >> 32, b0 = (unsigned)LOW(b), b1 = LOW(b) >> 32;
  u64 middle = (a0 * b0 >> 32) + (unsigned)(a0 * b1) + a1 * b0;
  // Hidden from the compiler, which would see that this is a product of 128 bits, and call this function for it.
  __asm__("" : "+r"(middle));
  u64 high = a1 * b1 + (a0 * b1 >> 32) + (middle >> 32) + LOW(a) * HIGH(b) + HIGH(a) * LOW(b);
  return PAIR(high, middle << 32 | (unsigned)(a0 * b0));
}

static int zeros(u128 a) { return HIGH(a) ? __builtin_clzll(HIGH(a)) : 64 + __builtin_clzll(LOW(a)); }

// By hand, bit by bit; b isn't 0.
static u128 divided(u128 a, u128 b, u128 *rest) {
  u128 quotient = 0;
  *rest = a;
  if (b > a) return 0;
  int by = zeros(b) - zeros(a);
  for (b <<= by; by >= 0; by--, b >>= 1) {
    quotient <<= 1;
    if (*rest >= b) {
      *rest -= b;
      quotient |= 1;
    }
  }
  return quotient;
}

u128 __udivti3(u128 a, u128 b) {
  u128 rest;
  if (!HIGH(a | b)) return LOW(a) / LOW(b);
  return divided(a, b, &rest);
}

u128 __umodti3(u128 a, u128 b) {
  u128 rest;
  if (!HIGH(a | b)) return LOW(a) % LOW(b);
  divided(a, b, &rest);
  return rest;
}
