// Times the library against the C that was written by hand, on the dossiers that are named, their units, their sheets and their
// goldens' bare tables and texts. Both must answer alike and leave the same output.
//
//   bench [NAME DOSSIER UNIT SHEET TABLE TEXT]...   a table: the operation, the name, the bytes of the dossier (for find, of the
//                                                   bare table, for read_kiss2 of the text), the code of the answer, the best
//                                                   time of each, the library's over C's; and one of the stack that the library
//                                                   takes
#include "baseline.h"
#include "stack.h"

struct time {
    long seconds, nanoseconds;
};

int clock_gettime(int clock, struct time *time);
int open(const char *path, int flags, ...);
int close(int file);
int printf(const char *format, ...);
int strncmp(const char *one, const char *other, size length);
size strlen(const char *text);

enum {
    MONOTONIC = 1,
    ROUNDS = 40,
    ROUND_NS = 2000000, // how long a round of calls of one program takes at least
};

struct file {
    byte bytes[1 << 18];
    size length;
};

static struct file dossier, unit, sheet, table, text;
static byte output[1 << 16], library_output[1 << 16];

static u64 library_check(void) { return hegdorvin_check(dossier.bytes, dossier.length); }
static u64 c_check(void) { return baseline_check(dossier.bytes, dossier.length); }

static u64 library_build(void) { return hegdorvin_build(dossier.bytes, dossier.length, output, sizeof output); }
static u64 c_build(void) { return baseline_build(dossier.bytes, dossier.length, output, sizeof output); }

static u64 library_run(void) { return hegdorvin_run(dossier.bytes, dossier.length, unit.bytes, unit.length); }
static u64 c_run(void) { return baseline_run(dossier.bytes, dossier.length, unit.bytes, unit.length); }

static u64 library_compare(void)
{
    return hegdorvin_compare(dossier.bytes, dossier.length, unit.bytes, unit.length, output, sizeof output);
}
static u64 c_compare(void)
{
    return baseline_compare(dossier.bytes, dossier.length, unit.bytes, unit.length, output, sizeof output);
}

static u64 library_judge(void) { return hegdorvin_judge(dossier.bytes, dossier.length, sheet.bytes, sheet.length); }
static u64 c_judge(void) { return baseline_judge(dossier.bytes, dossier.length, sheet.bytes, sheet.length); }

static u64 library_find(void) { return hegdorvin_find(table.bytes, table.length, 0, output, sizeof output); }
static u64 c_find(void) { return baseline_find(table.bytes, table.length, 0, output, sizeof output); }

static u64 library_read_kiss2(void) { return hegdorvin_read_kiss2(text.bytes, text.length, output, sizeof output); }
static u64 c_read_kiss2(void) { return baseline_read_kiss2(text.bytes, text.length, output, sizeof output); }

static const char large[] = "built, 60 KB", hard[] = "hard table", longest[] = "hard text";

// An operation of the library, the same by hand, and the file that they are lent first; how the names begin of the dossiers for
// which the library's time is limited as a multiple of C's; the most milliseconds for any; and the most bytes of stack that the
// library took.
static struct timed {
    const char *name;
    operation *both[2];
    const struct file *lent;
    const char *limited;
    int most_ratio, most_ms;
    size stack;
} operations[] = {
    {"check", {library_check, c_check}, &dossier, large, 3, 1000, 0},
    {"build", {library_build, c_build}, &dossier, large, 3, 1000, 0},
    {"run", {library_run, c_run}, &dossier, large, 3, 1000, 0},
    {"compare", {library_compare, c_compare}, &dossier, large, 5, 1000, 0},
    {"judge", {library_judge, c_judge}, &dossier, large, 3, 1000, 0},
    {"find", {library_find, c_find}, &table, hard, 2, 20, 0},
    {"read_kiss2", {library_read_kiss2, c_read_kiss2}, &text, longest, 2, 5, 0},
};

enum { OPERATIONS = sizeof operations / sizeof *operations };

// Kept where the compiler cannot tell that it is not looked at.
static volatile u64 answer;

static void read_file(const char *path, struct file *file)
{
    int from = open(path, 0);
    long got = from < 0 ? -1 : read(from, file->bytes, sizeof file->bytes);
    if (got < 0) {
        printf("bench: %s cannot be read\n", path);
        exit(1);
    }
    close(from);
    file->length = (size)got;
}

static long nanoseconds(operation *called, long calls)
{
    struct time start, end;
    clock_gettime(MONOTONIC, &start);
    for (long i = 0; i < calls; i++) answer = called();
    clock_gettime(MONOTONIC, &end);
    return (end.seconds - start.seconds) * 1000000000 + end.nanoseconds - start.nanoseconds;
}

// How many calls a round has.
static long calls_of(operation *called)
{
    long once = nanoseconds(called, 1);
    return 1 + ROUND_NS / (once + 1);
}

// The best time of a call of each, in milliseconds. The rounds of the two take turns, so that both see the same machine.
static void best_times(operation *const both[2], double best[2])
{
    long calls[2] = {calls_of(both[0]), calls_of(both[1])};
    for (int round = 0; round < ROUNDS; round++) {
        for (int i = 0; i < 2; i++) {
            double time = (double)nanoseconds(both[i], calls[i]) / (double)calls[i] / 1e6;
            if (round == 0 || time < best[i]) best[i] = time;
        }
    }
}

static int within_limits(const struct timed *timed, const char *name, const double best[2])
{
    int is_limited = strncmp(name, timed->limited, strlen(timed->limited)) == 0;
    if (is_limited && best[0] > timed->most_ratio * best[1]) return 0;
    return best[0] <= timed->most_ms;
}

// Whether both answer alike and leave the same output.
static int alike(const struct timed *timed, const char *name)
{
    memset(output, 0, sizeof output);
    u64 library = timed->both[0]();
    memcpy(library_output, output, sizeof output);
    memset(output, 0, sizeof output);
    u64 c = timed->both[1]();
    if (library == c && memcmp(library_output, output, sizeof output) == 0) return 1;
    printf("bench: %s of %s: the library answers %#lx, C %#lx\n", timed->name, name, library, c);
    return 0;
}

// Prints the row of an operation on the files. Whether the library's answer and its time are as they are to be.
static int time_operation(const struct timed *timed, const char *name)
{
    double best[2];
    if (!alike(timed, name)) return 0;
    best_times(timed->both, best);
    int within = within_limits(timed, name, best);
    printf("| %s | %s | %lu | %lu | %.3f | %.3f | %.2f%s |\n", timed->name, name, timed->lent->length, answer & 31, best[0],
           best[1], best[0] / best[1], within ? "" : ", over the limit");
    return within;
}

static void measure_stack(struct timed *timed)
{
    size stack = stack_of(timed->both[0]);
    if (stack > timed->stack) timed->stack = stack;
}

int main(int count, char **words)
{
    int good = 1;
    printf("| operation | dossier | bytes | code | library, ms | C, ms | ratio |\n|---|---|---|---|---|---|---|\n");
    for (int i = 1; i + 5 < count; i += 6) {
        read_file(words[i + 1], &dossier);
        read_file(words[i + 2], &unit);
        read_file(words[i + 3], &sheet);
        read_file(words[i + 4], &table);
        read_file(words[i + 5], &text);
        for (int j = 0; j < OPERATIONS; j++) {
            good &= time_operation(&operations[j], words[i]);
            measure_stack(&operations[j]);
        }
    }
    printf("\n| operation | most stack, bytes |\n|---|---|\n");
    for (int j = 0; j < OPERATIONS; j++) printf("| %s | %lu |\n", operations[j].name, operations[j].stack);
    printf(good ? "within the limits\n" : "not within the limits\n");
    return !good;
}
