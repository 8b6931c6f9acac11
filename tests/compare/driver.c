// Calls the library on files that come over the standard input, and writes its answers to the standard output.
//
// A request is five numbers of four bytes, low byte first (the operation, a number that it is passed, the lengths of two files,
// the length of the output), then the bytes of the two files. An answer is the packed answer and what was harmed by the call (0
// for nothing), eight bytes each, then the bytes of the output.
#include "native.h"

enum {
    MOST = 1 << 18, // the most bytes of a file or an output
    GUARD = 64,     // the bytes before and after each that no call may change
    CANARY = 0xC5,
};

// A lent file or output between its guards, and a copy of the file as it came.
struct lent {
    byte bytes[GUARD + MOST + GUARD];
    byte copy[MOST];
    size length;
};

static struct lent first, second, output;

// What an output holds before the call.
static byte unwritten[MOST];

static byte in[1 << 16], out[1 << 16];
static size in_place, in_length, out_length;

static void flush(void)
{
    for (size done = 0; done < out_length;) {
        long wrote = write(1, out + done, out_length - done);
        if (wrote <= 0) exit(2);
        done += (size)wrote;
    }
    out_length = 0;
}

static void put(const byte *bytes, size length)
{
    while (length > 0) {
        if (out_length == sizeof out) flush();
        size part = sizeof out - out_length;
        if (part > length) part = length;
        memcpy(out + out_length, bytes, part);
        out_length += part;
        bytes += part;
        length -= part;
    }
}

static void put_number(u64 number)
{
    byte bytes[8];
    for (int i = 0; i < 8; i++) bytes[i] = (byte)(number >> 8 * i);
    put(bytes, sizeof bytes);
}

// Nothing may wait in the output while the other side is waited for. The end of the input is the end of the program.
static void refill(void)
{
    flush();
    long got = read(0, in, sizeof in);
    if (got <= 0) exit(got == 0 ? 0 : 2);
    in_place = 0;
    in_length = (size)got;
}

static void get(byte *bytes, size length)
{
    while (length > 0) {
        if (in_place == in_length) refill();
        size part = in_length - in_place;
        if (part > length) part = length;
        memcpy(bytes, in + in_place, part);
        in_place += part;
        bytes += part;
        length -= part;
    }
}

static u32 get_number(void)
{
    byte bytes[4];
    get(bytes, sizeof bytes);
    return bytes[0] | (u32)bytes[1] << 8 | (u32)bytes[2] << 16 | (u32)bytes[3] << 24;
}

static void set_length(struct lent *lent)
{
    lent->length = get_number();
    if (lent->length > MOST) exit(3);
    memset(lent->bytes, CANARY, GUARD);
    memset(lent->bytes + GUARD + lent->length, CANARY, GUARD);
}

static void get_file(struct lent *lent)
{
    get(lent->bytes + GUARD, lent->length);
    memcpy(lent->copy, lent->bytes + GUARD, lent->length);
}

// Where what is lent begins. What is empty is lent as no place at all.
static byte *place(struct lent *lent)
{
    return lent->length == 0 ? 0 : lent->bytes + GUARD;
}

enum { CHECK, BUILD, RUN, COST, COMPARE, JUDGE, JUDGE_WORD, FIND, READ_KISS2 };

static u64 call(u32 operation, byte number)
{
    switch (operation) {
    case CHECK: return hegdorvin_check(place(&first), first.length);
    case BUILD: return hegdorvin_build(place(&first), first.length, place(&output), output.length);
    case RUN: return hegdorvin_run(place(&first), first.length, place(&second), second.length);
    case COST: return hegdorvin_cost(place(&first), first.length);
    case COMPARE:
        return hegdorvin_compare(place(&first), first.length, place(&second), second.length, place(&output), output.length);
    case JUDGE: return hegdorvin_judge(place(&first), first.length, place(&second), second.length);
    case JUDGE_WORD: return hegdorvin_judge_word(place(&first), first.length, place(&second), second.length);
    case FIND: return hegdorvin_find(place(&first), first.length, number, place(&output), output.length);
    case READ_KISS2: return hegdorvin_read_kiss2(place(&first), first.length, place(&output), output.length);
    default: exit(3);
    }
}

#ifdef WRONG
enum { BOUND_PLACE = 4 };

// Whether an operation is one that the wrong library is wrong at.
static int is_wrong(u32 operation)
{
    if (WRONG < 7) return 1;
    return operation == (WRONG < 9 ? BUILD : WRONG < 12 ? FIND : READ_KISS2);
}

// The byte that a wrong library could change, or none where this call has no such byte.
static byte *spoilt_byte(u32 operation, byte number, u64 answer)
{
    size written = (answer & 31) == 0 ? answer >> 8 & 0xFFFFFF : 0;
    if (!is_wrong(operation)) return 0;
    switch (WRONG) {
    case 2: return place(&first);
    case 3: return first.bytes + GUARD + first.length;
    case 4: return place(&second);
    case 5: return output.bytes + GUARD - 1;
    case 6: return output.bytes + GUARD + output.length;
    case 7:
    case 9:
    case 12: return written == 0 ? place(&output) : 0;
    case 8:
    case 10:
    case 13: return 0 < written && written < output.length ? output.bytes + GUARD + written : 0;
    case 11: return written != 0 && number == 0 ? output.bytes + GUARD + BOUND_PLACE : 0;
    default: return 0;
    }
}

// What a wrong library could do, now and then: 1 answers otherwise; 2 changes the first file, 3 the byte after it, 4 the
// second file, 5 the byte before the output, 6 the byte after it, 7 the output of a refused build, 8 the byte after a built
// dossier, 9 the output of a refused find, 10 the byte after a found dossier, 11 the default bound in a found dossier, 12 the
// output of a text that is refused, 13 the byte after the unit of a text.
static u64 spoilt(u32 operation, byte number, u64 answer)
{
    static u32 calls;
    byte *changed = spoilt_byte(operation, number, answer);
    if (WRONG != 1 && changed == 0) return answer;
    if (++calls % 101 != 0) return answer;
    if (WRONG == 1) return answer ^ 1ul << 8;
    *changed ^= 1;
    return answer;
}
#endif

static int guards_harmed(const struct lent *lent)
{
    for (size i = 0; i < GUARD; i++) {
        if (lent->bytes[i] != CANARY || lent->bytes[GUARD + lent->length + i] != CANARY) return 1;
    }
    return 0;
}

static int file_harmed(const struct lent *lent)
{
    return guards_harmed(lent) || memcmp(lent->bytes + GUARD, lent->copy, lent->length) != 0;
}

// The first of 1 the first file or its guards, 2 the second, 3 the guards of the output that is not as it was.
static u64 harmed(void)
{
    if (file_harmed(&first)) return 1;
    if (file_harmed(&second)) return 2;
    return guards_harmed(&output) ? 3 : 0;
}

// Every byte is over 127, as no length and no input is, and differs from those beside it.
static void fill_unwritten(void)
{
    for (size i = 0; i < MOST; i++) unwritten[i] = (byte)(128 | i);
}

int main(void)
{
    fill_unwritten();
    for (;;) {
        u32 operation = get_number();
        byte number = (byte)get_number();
        set_length(&first);
        set_length(&second);
        set_length(&output);
        get_file(&first);
        get_file(&second);
        memcpy(output.bytes + GUARD, unwritten, output.length);
        u64 answer = call(operation, number);
#ifdef WRONG
        answer = spoilt(operation, number, answer);
#endif
        put_number(answer);
        put_number(harmed());
        put(output.bytes + GUARD, output.length);
    }
}
