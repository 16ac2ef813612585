/* Sorts 50,000 numbers of 64 bits by quicksort, and tells the one in the middle. */
#define EXPORT __attribute__((export_name("run")))

enum { COUNT = 50000 };

static long long numbers[COUNT];

static void sort(int from, int to) {
  while (from < to) {
    long long middle = numbers[from + (to - from) / 2];
    int low = from, high = to;
    while (low <= high) {
      while (numbers[low] < middle) low++;
      while (middle < numbers[high]) high--;
      if (low > high) break;
      long long kept = numbers[low];
      numbers[low++] = numbers[high];
      numbers[high--] = kept;
    }
    sort(from, high);
    from = low;
  }
}

EXPORT long long run(void) {
  unsigned long long seed = 88172645463325252u;
  for (int i = 0; i < COUNT; i++) {
    seed ^= seed << 13;
    seed ^= seed >> 7;
    seed ^= seed << 17;
    numbers[i] = (long long)seed;
  }
  sort(0, COUNT - 1);
  return numbers[COUNT / 2];
}
