/* Moves and fills bytes, by the instructions of bulk memory (`-mbulk-memory`). */
#include "host.h"

enum { COUNT = 4096 };

static unsigned char bytes[COUNT];

static unsigned sum(void) {
  unsigned total = 0;
  for (int i = 0; i < COUNT; i++) total = total * 31 + bytes[i];
  return total;
}

/* Numbers the bytes, moves some of them, which may overlap, and gives a sum of all. */
EXPORT("move") unsigned move(unsigned to, unsigned from, unsigned count) {
  for (int i = 0; i < COUNT; i++) bytes[i] = (unsigned char)(i * 7 + i / 256);
  __builtin_memmove(bytes + to, bytes + from, count);
  return sum();
}

/* Makes some bytes the same, and prints those at their ends and beside them. */
EXPORT("fill") void fill(unsigned from, unsigned value, unsigned count) {
  __builtin_memset(bytes, 1, COUNT);
  __builtin_memset(bytes + from, (int)value, count);
  num(bytes[from - 1]);
  num(bytes[from]);
  num(bytes[from + count - 1]);
  num(bytes[from + count]);
}
