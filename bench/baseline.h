// The operations written by hand in C, to time the library against. Each answers as the library's function of its name does.
#ifndef BASELINE_H
#define BASELINE_H

#include "native.h"

u64 baseline_check(const byte *dossier, size length);
u64 baseline_build(const byte *dossier, size length, byte *out, size room);
u64 baseline_run(const byte *dossier, size length, const byte *unit, size unit_length);
u64 baseline_compare(const byte *dossier, size length, const byte *unit, size unit_length, byte *out, size room);
u64 baseline_judge(const byte *dossier, size length, const byte *sheet, size sheet_length);
u64 baseline_find(const byte *unit, size unit_length, byte bound, byte *out, size room);
u64 baseline_read_kiss2(const byte *text, size length, byte *out, size room);

#endif
