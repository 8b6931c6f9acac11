// What the programs here use of the header of this name: the toolchain's compiler comes without headers.
#ifndef STDDEF_H
#define STDDEF_H

typedef __SIZE_TYPE__ size_t;

#endif
