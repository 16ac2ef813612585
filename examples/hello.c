/* A program of wasi-libc: writes a line, and ends with an exit code. */
#include <string.h>
#include <unistd.h>

int main(void) {
  const char *text = "hello\n";
  return write(1, text, strlen(text)) == 6 ? 3 : 1;
}
