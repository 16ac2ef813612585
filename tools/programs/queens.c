/* In how many ways 11 queens stand on a board of 11 by 11 squares, by recursion over its rows. */
#define EXPORT __attribute__((export_name("run")))

enum { SIZE = 11 };

static int ways(unsigned columns, unsigned left, unsigned right) {
  if (columns == (1u << SIZE) - 1) return 1;
  int found = 0;
  for (unsigned free = ((1u << SIZE) - 1) & ~(columns | left | right); free; free &= free - 1) {
    unsigned at = free & -free;
    found += ways(columns | at, (left | at) << 1, (right | at) >> 1);
  }
  return found;
}

EXPORT int run(void) { return ways(0, 0, 0); }
