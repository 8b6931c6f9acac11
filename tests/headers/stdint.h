// What the programs here use of the header of this name: the toolchain's compiler comes without headers.
#ifndef STDINT_H
#define STDINT_H

typedef __UINT8_TYPE__ uint8_t;
typedef __UINT64_TYPE__ uint64_t;

#define UINT64_C(number) number##UL

#endif
