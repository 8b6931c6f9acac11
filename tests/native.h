// What the C programs here use of the C library, and the functions of the archive. The toolchain has no headers.
#ifndef NATIVE_H
#define NATIVE_H

#include "hegdorvin.h"

typedef unsigned char byte;
typedef unsigned short u16;
typedef unsigned int u32;
typedef unsigned long u64;
typedef unsigned long size;

long read(int file, void *bytes, size most);
long write(int file, const void *bytes, size length);
int memcmp(const void *one, const void *other, size length);
void *memcpy(void *to, const void *from, size length);
void *memset(void *to, int value, size length);
_Noreturn void exit(int status);

#endif
