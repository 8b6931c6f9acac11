// What the programs here use of the header of this name: the toolchain's compiler comes without headers.
#ifndef STDIO_H
#define STDIO_H

int printf(const char *format, ...);

#endif
