/* The functions that `wstream run` and `wstream exec` provide to a module, and the attribute that exports one of its own. */
#ifndef HOST_H
#define HOST_H

/* Writes the low byte of its argument. */
__attribute__((import_module("host"), import_name("put"))) void put(int byte);

/* Writes its argument as a signed decimal number, and a newline. */
__attribute__((import_module("host"), import_name("num"))) void num(long long value);

#define EXPORT(name) __attribute__((export_name(name)))

#endif
