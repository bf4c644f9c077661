/* What the proved module asks of a C library, for WebAssembly: memory that is given and taken back, bytes that are
   copied and compared, and four operations on 128 bits. Nothing proves this file: it stands where the C library
   stands for the program (README.md, "What is proved").

   Blocks have classes of size: 16, 32, .. 128 bytes, then four classes for each power of two. A block that is given
   back waits in the list of its class; new ones are cut from a memory that grows. */
typedef unsigned long u64;
typedef unsigned char u8;
typedef unsigned __int128 u128;

enum { CLASSES = 256, PAGE = 65536, PAGES = 256 };

struct tried { u64 ok; void *place; };

extern u8 __heap_base;
static u64 next, end;
static void *freed[CLASSES];

static int class_of(u64 n) {
  if (n <= 128) return (int)((n + 15) / 16);
  int top = 63 - __builtin_clzl(n - 1);
  return 8 + (top - 7) * 4 + (int)(((n - 1) >> (top - 2)) & 3) + 1;
}

static u64 size_of(int c) {
  if (c <= 8) return (u64)c * 16;
  int k = c - 9;
  return ((u64)(4 + (k & 3) + 1)) << (7 + k / 4 - 2);
}

/* The memory grows, so that so many bytes more lie before its end. */
static int grows(u64 bytes) {
  u64 pages = (bytes + PAGE - 1) / PAGE, more = pages < PAGES ? PAGES : pages;
  u64 was = __builtin_wasm_memory_grow(0, more);
  if (was == (u64)-1) {
    more = pages;
    was = __builtin_wasm_memory_grow(0, more);
  }
  if (was == (u64)-1) return 0;
  if (was * PAGE != end) next = was * PAGE; /* the host made it grow too */
  end = (was + more) * PAGE;
  return 1;
}

/* A block, before which 16 bytes hold its class; none where the memory does not grow. */
static void *get(u64 n) {
  if (n == 0) n = 1;
  if (n >= 1ul << 40) return 0;
  int c = class_of(n);
  void *p = freed[c];
  if (p) {
    freed[c] = *(void **)p;
    return p;
  }
  if (!next) {
    next = ((u64)&__heap_base + 15) & ~15ul;
    end = __builtin_wasm_memory_size(0) * PAGE;
  }
  u64 size = size_of(c) + 16;
  while (next + size > end)
    if (!grows(next + size - end)) return 0;
  *(u64 *)next = (u64)c;
  p = (void *)(next + 16);
  next += size;
  return p;
}

static int class_at(void *p) { return (int)((u64 *)p)[-2]; }

static void give(void *p) {
  int c = class_at(p);
  *(void **)p = freed[c];
  freed[c] = p;
}

static struct tried answered(void *p) {
  struct tried t = { p != 0, p ? p : (void *)16 };
  return t;
}

/* What the standard library calls: no alignment beyond 16 is asked for. */
struct tried rattle_alloc(u64 n, u64 alignment) { return answered(get(n)); }

struct tried rattle_realloc(void *old, u64 kept, u64 n, u64 alignment) {
  if (size_of(class_at(old)) >= n) return answered(old);
  void *p = get(n);
  if (p) {
    __builtin_memcpy(p, old, kept < n ? kept : n);
    give(old);
  }
  return answered(p);
}

void rattle_dealloc(void *p) { give(p); }

/* What the page calls: places for the bytes that it hands over. */
__attribute__((export_name("host_room"))) void *host_room(u64 n) { return get(n); }
__attribute__((export_name("host_free"))) void host_free(void *p) { give(p); }

/* What the compiler calls. */
int memcmp(const void *a, const void *b, u64 n) {
  const u8 *x = a, *y = b;
  for (u64 i = 0; i < n; i++)
    if (x[i] != y[i]) return x[i] < y[i] ? -1 : 1;
  return 0;
}
int bcmp(const void *a, const void *b, u64 n) { return memcmp(a, b, n); }
void *memcpy(void *a, const void *b, u64 n) { return __builtin_memcpy(a, b, n); }
void *memmove(void *a, const void *b, u64 n) { return __builtin_memmove(a, b, n); }
void *memset(void *a, int c, u64 n) { return __builtin_memset(a, c, n); }

union halves { u64 word[2]; u128 whole; };
static u128 both(u64 high, u64 low) { union halves h = { { low, high } }; return h.whole; }
static u64 low(u128 x) { union halves h; h.whole = x; return h.word[0]; }
static u64 high(u128 x) { union halves h; h.whole = x; return h.word[1]; }

u128 __lshrti3(u128 x, int n) {
  u64 h = high(x), l = low(x);
  return n == 0 ? x : n >= 64 ? both(0, h >> (n - 64)) : both(h >> n, (l >> n) | (h << (64 - n)));
}
u128 __ashlti3(u128 x, int n) {
  u64 h = high(x), l = low(x);
  return n == 0 ? x : n >= 64 ? both(l << (n - 64), 0) : both((h << n) | (l >> (64 - n)), l << n);
}
u128 __ashrti3(u128 x, int n) {
  long h = (long)high(x);
  u64 l = low(x);
  return n == 0 ? x
       : n >= 64 ? both((u64)(h >> 63), (u64)(h >> (n - 64)))
                 : both((u64)(h >> n), (l >> n) | ((u64)h << (64 - n)));
}
u128 __multi3(u128 x, u128 y) {
  u64 a = low(x), b = low(y), al = a & 0xffffffff, ah = a >> 32, bl = b & 0xffffffff, bh = b >> 32;
  u64 ll = al * bl, lh = al * bh, hl = ah * bl, hh = ah * bh;
  u64 mid = (ll >> 32) + (lh & 0xffffffff) + (hl & 0xffffffff);
  u64 top = hh + (lh >> 32) + (hl >> 32) + (mid >> 32) + a * high(y) + b * high(x);
  return both(top, (ll & 0xffffffff) | (mid << 32));
}
