/* Evaluates expressions in postfix notation, by a table of function pointers, with static data and a stack in memory. */
#include "host.h"

typedef long long (*operation)(long long, long long);

static long long add(long long a, long long b) { return a + b; }
static long long subtract(long long a, long long b) { return a - b; }
static long long multiply(long long a, long long b) { return a * b; }
static long long divide(long long a, long long b) { return a / b; }

static const struct {
  char sign;
  operation apply;
} operations[] = {{'+', add}, {'-', subtract}, {'*', multiply}, {'/', divide}};

static const char *const expressions[] = {"2 3 + 4 *", "1000000 1000000 *", "7 2 - 3 /", "8 0 /"};

enum { COUNT = sizeof expressions / sizeof *expressions };

static operation operation_of(char sign) {
  for (unsigned i = 0; i < sizeof operations / sizeof *operations; i++)
    if (operations[i].sign == sign) return operations[i].apply;
  __builtin_trap();
}

static long long value_of(const char *text) {
  long long stack[16];
  int height = 0;
  while (*text) {
    if (*text >= '0' && *text <= '9') {
      long long number = 0;
      for (; *text >= '0' && *text <= '9'; text++) number = 10 * number + (*text - '0');
      stack[height++] = number;
    } else if (*text == ' ') {
      text++;
    } else {
      height--;
      stack[height - 1] = operation_of(*text++)(stack[height - 1], stack[height]);
    }
  }
  return stack[0];
}

/* Prints the expression at this index, and returns its value. */
EXPORT("value") long long value(unsigned index) {
  if (index >= COUNT) __builtin_trap();
  for (const char *text = expressions[index]; *text; text++) put(*text);
  put('\n');
  return value_of(expressions[index]);
}
