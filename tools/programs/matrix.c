/* The product of two matrices of 120 by 120 numbers, and the sum of its diagonal. */
#define EXPORT __attribute__((export_name("run")))

enum { SIZE = 120 };

static int a[SIZE][SIZE], b[SIZE][SIZE], product[SIZE][SIZE];

EXPORT int run(void) {
  for (int i = 0; i < SIZE; i++)
    for (int k = 0; k < SIZE; k++) {
      a[i][k] = 3 * i - k;
      b[i][k] = i ^ k;
    }
  for (int i = 0; i < SIZE; i++)
    for (int j = 0; j < SIZE; j++) {
      int sum = 0;
      for (int k = 0; k < SIZE; k++) sum += a[i][k] * b[k][j];
      product[i][j] = sum;
    }
  int sum = 0;
  for (int i = 0; i < SIZE; i++) sum += product[i][i];
  return sum;
}
