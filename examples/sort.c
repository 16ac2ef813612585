/* Sorts numbers with the C library's malloc and qsort (wasi-libc), and prints them. */
#include "host.h"
#include <stdlib.h>

static int ascending(const void *a, const void *b) {
  int x = *(const int *)a, y = *(const int *)b;
  return (x > y) - (x < y);
}

/* Sorts so many numbers, and returns the greatest one, or -1 where there is no memory for them. */
EXPORT("sort") int sort(unsigned count) {
  if (count == 0 || count > 1000000) return -1;
  int *numbers = malloc(count * sizeof *numbers);
  if (!numbers) return -1;
  for (unsigned i = 0; i < count; i++) numbers[i] = (i * 7919) % 101;
  qsort(numbers, count, sizeof *numbers, ascending);
  for (unsigned i = 0; i < count; i++) num(numbers[i]);
  int greatest = numbers[count - 1];
  free(numbers);
  return greatest;
}
