// The C library of a caller who has these two functions and no others: enough for the archive (tests/native alone). They are linked, not run.
typedef unsigned long size;

void *memcpy(void *to, const void *from, size length);
void *memset(void *to, int value, size length);

void *memcpy(void *to, const void *from, size length)
{
    (void)from, (void)length;
    return to;
}

#ifndef WITHOUT_MEMSET
void *memset(void *to, int value, size length)
{
    (void)value, (void)length;
    return to;
}
#endif
