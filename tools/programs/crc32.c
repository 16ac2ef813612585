/* The CRC-32 of 64 KiB, byte by byte by a table, 16 times. */
#define EXPORT __attribute__((export_name("run")))

static unsigned table[256];
static unsigned char bytes[65536];

EXPORT unsigned run(void) {
  for (unsigned n = 0; n < 256; n++) {
    unsigned code = n;
    for (int k = 0; k < 8; k++) code = code & 1 ? 0xEDB88320 ^ (code >> 1) : code >> 1;
    table[n] = code;
  }
  for (unsigned i = 0; i < sizeof bytes; i++) bytes[i] = i * 2654435761u >> 24;
  unsigned code = 0xFFFFFFFF;
  for (int turn = 0; turn < 16; turn++)
    for (unsigned i = 0; i < sizeof bytes; i++) code = table[(code ^ bytes[i]) & 255] ^ (code >> 8);
  return ~code;
}
