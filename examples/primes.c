/* Prints the primes below a bound, and returns how many there are. */
#include "host.h"

enum { MOST = 100000 };

static unsigned char composite[MOST];

static void print(const char *text) {
  for (; *text; text++) put(*text);
}

EXPORT("primes") int primes(int bound) {
  if (bound < 0 || bound > MOST) __builtin_trap();
  int count = 0;
  print("primes:\n");
  for (int n = 2; n < bound; n++) {
    if (composite[n]) continue;
    num(n);
    count++;
    for (long long k = (long long)n * n; k < bound; k += n) composite[k] = 1;
  }
  return count;
}
