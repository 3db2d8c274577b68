/* What the WebAssembly module needs beside the compiled crates: a heap, and the product and the shifts of numbers of 128 bits.

   The heap has a list of free blocks for each power of two and for one and a half times each. The 16 bytes before a block have the number of
   its list. Once no block is in use, the heap begins anew. */
typedef unsigned long word;
typedef unsigned __int128 wide;

/* What the compiled crates ask of the heap: whether memory was given, and where. */
struct given {
  word is_given;
  void *at;
};

extern unsigned char __heap_base;
static unsigned char nothing;
static word blocks_in_use, next, end;
static unsigned char *lists[128];

static int list_of(word size) {
  if (size <= 16) return 8;
  int power = 63 - __builtin_clzl(size - 1); /* 2^power < size <= 2^(power + 1) */
  return 2 * power + (size > (3UL << (power - 1)) ? 2 : 1);
}

static word size_of(int list) {
  return list & 1 ? 3UL << (list / 2 - 1) : 1UL << (list / 2);
}

/* Makes the memory larger, if there aren't so many bytes behind the last block. It takes 16 MiB at once where it can. */
static int make_room(word size) {
  if (end - next >= size) return 1;
  word pages = (size - (end - next) + 65535) >> 16, more = pages < 256 ? 256 : pages;
  if (__builtin_wasm_memory_grow(0, more) == (word)-1) {
    if (__builtin_wasm_memory_grow(0, pages) == (word)-1) return 0;
    more = pages;
  }
  end += more << 16;
  return 1;
}

__attribute__((export_name("wdq_alloc"))) void *allocate(word size) {
  if (size >> 40) return 0;
  int list = list_of(size);
  unsigned char *block = lists[list];
  if (block) {
    lists[list] = *(unsigned char **)block;
    blocks_in_use++;
    return block;
  }
  if (!blocks_in_use) {
    next = ((word)&__heap_base + 15) & ~15UL;
    end = __builtin_wasm_memory_size(0) << 16;
  }
  word whole = (size_of(list) + 31) & ~15UL;
  if (!make_room(whole)) return 0;
  block = (unsigned char *)next + 16;
  next += whole;
  block[-16] = list;
  blocks_in_use++;
  return block;
}

__attribute__((export_name("wdq_free"))) void release(void *at) {
  unsigned char *block = at;
  *(unsigned char **)block = lists[block[-16]];
  lists[block[-16]] = block;
  if (!--blocks_in_use) __builtin_memset(lists, 0, sizeof lists);
}

static struct given given(void *at) {
  return (struct given){at != 0, at ? at : &nothing};
}

struct given rattle_alloc(word size, word alignment) {
  return given(allocate(size));
}

struct given rattle_realloc(void *at, word kept, word size, word alignment) {
  unsigned char *block = at;
  if (list_of(size) <= block[-16]) return given(block);
  unsigned char *larger = allocate(size);
  if (larger) {
    __builtin_memcpy(larger, block, kept);
    release(block);
  }
  return given(larger);
}

void rattle_dealloc(void *at) {
  release(at);
}

wide __multi3(wide x, wide y) {
  word a = x, b = y, a0 = a & 0xffffffff, a1 = a >> 32, b0 = b & 0xffffffff, b1 = b >> 32;
  word low = a0 * b0, middle = a1 * b0 + (low >> 32), other = a0 * b1 + (middle & 0xffffffff);
  word high = a1 * b1 + (middle >> 32) + (other >> 32) + a * (word)(y >> 64) + (word)(x >> 64) * b;
  return (wide)high << 64 | (other << 32 | (low & 0xffffffff));
}

/* A shift is by 0 to 127. A shift by 1 and then by 63 - by is one by 64 - by that is defined at 0. */
wide __ashlti3(wide x, int by) {
  word low = x, high = x >> 64;
  return by & 64 ? (wide)(low << (by & 63)) << 64 : (wide)(high << by | low >> 1 >> (63 - by)) << 64 | low << by;
}

wide __lshrti3(wide x, int by) {
  word low = x, high = x >> 64;
  return by & 64 ? high >> (by & 63) : (wide)(high >> by) << 64 | (low >> by | high << 1 << (63 - by));
}
