/* Runs a program of a small stack machine 50,000 times, whose instructions are functions that are called by a table. */
#define EXPORT __attribute__((export_name("run")))

static int stack[16], height;

static void one(void) { stack[height++] = 1; }
static void twice(void) { stack[height - 1] *= 2; }
static void add(void) { height--; stack[height - 1] += stack[height]; }
static void copy(void) { stack[height] = stack[height - 1]; height++; }
static void drop(void) { height--; }

/* Not constant, so that the compiler knows no function that is called. */
void (*operations[])(void) = {one, twice, add, copy, drop};
unsigned char program[] = {0, 3, 1, 2, 0, 2, 3, 3, 2, 2, 1, 3, 4};

EXPORT int run(void) {
  int sum = 0;
  for (int turn = 0; turn < 50000; turn++) {
    height = 0;
    for (unsigned i = 0; i < sizeof program; i++) operations[program[i]]();
    sum += stack[0];
  }
  return sum;
}
