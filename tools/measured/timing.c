/* Calls the functions of the crate `measured`, of two states of the repository that are linked side by side.

   timing times                             a line for each measure: its name, and nanoseconds before and after
   timing run SIDE KIND MEASURE SIZE ROUNDS  one measure, so often: of a piece or a reel of this size

   The size of a reel is its number of knots, that of a piece is 10 times the grade of its left end and the grade of its
   right end together. The blocks are files of the folder that it is run in. GRADES, COUNTS and GAP are given where it is
   compiled. */
#define _POSIX_C_SOURCE 199309L
#include <stdint.h>
#include <stdio.h>
#include <stdlib.h>
#include <string.h>
#include <time.h>

typedef int64_t piece_function(uint64_t, const int32_t *, size_t, const int32_t *, size_t, uint64_t);
typedef int64_t reel_function(const uint8_t *, size_t, const int32_t *, size_t, uint8_t *, size_t, uint32_t, uint32_t);

#define SIDES(name) before_##name, after_##name
extern piece_function SIDES(value), SIDES(trend), SIDES(total);
extern reel_function SIDES(reel_append), SIDES(reel_correct), SIDES(reel_read), SIDES(reel_write);
extern reel_function SIDES(reel_value), SIDES(reel_trend), SIDES(reel_total), SIDES(reel_same);

struct piece_measure { const char *name; piece_function *side[2]; };
struct reel_measure { const char *name; reel_function *side[2]; };

static const struct piece_measure pieces[] = {{"value", {SIDES(value)}}, {"trend", {SIDES(trend)}}, {"total", {SIDES(total)}}};
static const struct reel_measure calls[] = {
    {"append", {SIDES(reel_append)}}, {"correct", {SIDES(reel_correct)}}, {"read", {SIDES(reel_read)}},
    {"write", {SIDES(reel_write)}},   {"value", {SIDES(reel_value)}},     {"trend", {SIDES(reel_trend)}},
    {"total", {SIDES(reel_total)}},   {"same", {SIDES(reel_same)}}};
static const int counts[] = {COUNTS};
#define EACH(i, list) (size_t i = 0; i < sizeof list / sizeof *list; i++)

/* pieces with weights up to the size rule's limit */
enum { PIECES = 512, REPEATS = 41 };
static int32_t left[PIECES][8], right[PIECES][8];
static uint64_t place[PIECES];

static uint64_t seed = 88172645463325252u;
static uint64_t chance(void) { seed ^= seed << 13; seed ^= seed >> 7; seed ^= seed << 17; return seed; }

static void make_pieces(int size)
{
    for (int i = 0; i < PIECES; i++) {
        int64_t most = 268435456;
        for (int j = 0; j < 8; j++, most /= GAP) {
            left[i][j] = j <= size / 10 ? (int32_t)(chance() % (2 * most + 1)) - (int32_t)most : 0;
            right[i][j] = j <= size % 10 ? (int32_t)(chance() % (2 * most + 1)) - (int32_t)most : 0;
        }
        place[i] = chance() % (256 * GAP + 1);
    }
}

/* a block, and what its calls are given: knot k is at k gaps */
static uint8_t block[8192], out[8192];
static size_t bytes;
static const int32_t list[] = {3, -2, 1, 0, -1, 0, 1, 0};

static void load(int count)
{
    char name[32];
    snprintf(name, sizeof name, "%d.block", count);
    FILE *file = fopen(name, "rb");
    if (!file) { perror(name); exit(1); }
    bytes = fread(block, 1, sizeof block, file);
    fclose(file);
}

static uint32_t argument(const char *call, int count)
{
    if (!strcmp(call, "append")) return GAP * count;
    if (!strcmp(call, "total")) return count - 1;
    return (256 * GAP * (count - 1) / 2) & ~63u;
}

/* rounds of a measure; those of one piece go round the pieces */
static int64_t piece_rounds(piece_function *f, int size, long rounds)
{
    uint64_t gathered = 0;
    for (long i = 0; i < rounds; i++) {
        int k = i % PIECES;
        gathered = 31 * gathered + (uint64_t)f(GAP, left[k], size / 10 + 1, right[k], size % 10 + 1, place[k]);
    }
    return (int64_t)gathered;
}

static int64_t reel_rounds(reel_function *f, const char *call, int count, long rounds)
{
    int64_t gathered = f(block, bytes, list, 8, out, sizeof out, argument(call, count), rounds);
    if (gathered == INT64_MIN) { printf("%s of %d knots: refused\n", call, count); exit(1); }
    return gathered;
}

static double now(void) { struct timespec t; clock_gettime(CLOCK_MONOTONIC, &t); return t.tv_sec * 1e9 + t.tv_nsec; }
static volatile int64_t kept;

/* the least time of a measure so far; what else the machine does can only add to a time */
static void least(double *time, double from)
{
    double taken = now() - from;
    if (*time == 0 || taken < *time) *time = taken;
}

static void tell(const char *kind, const char *name, int size, const double time[2])
{
    printf("%s %s %d %.2f %.2f\n", kind, name, size, time[0], time[1]);
    fflush(stdout);
}

/* a request may change answers, so a difference is told, once for each name, and does not stop the run */
static void compare(const char *name, const int64_t answer[2])
{
    static char told[200];
    if (answer[0] == answer[1] || strstr(told, name)) return;
    strcat(told, name);
    fprintf(stderr, "%s: the answers differ\n", name);
}

static void piece_times(const struct piece_measure *measure, int size)
{
    double time[2] = {0, 0};
    int64_t answer[2];
    for (int r = 0; r < REPEATS; r++)
        for (int s = 0; s < 2; s++) {
            double from = now();
            answer[s] = piece_rounds(measure->side[s], size, 40 * PIECES);
            least(&time[s], from);
        }
    compare(measure->name, answer);
    for (int s = 0; s < 2; s++) time[s] /= 40 * PIECES;
    tell("piece", measure->name, size, time);
}

/* a call is the difference of many rounds and a few, which leaves out the block's reading and the last writing */
static void call_times(const struct reel_measure *measure, int count, double time[2])
{
    enum { FEW = 200, MANY = 2200 };
    double few[2] = {0, 0}, many[2] = {0, 0};
    int64_t answer[2];
    load(count);
    for (int r = 0; r < REPEATS; r++)
        for (int s = 0; s < 2; s++) {
            double from = now();
            kept = reel_rounds(measure->side[s], measure->name, count, FEW);
            least(&few[s], from);
            from = now();
            answer[s] = reel_rounds(measure->side[s], measure->name, count, MANY);
            least(&many[s], from);
        }
    compare(measure->name, answer);
    for (int s = 0; s < 2; s++) time[s] = (many[s] - few[s]) / (MANY - FEW);
}

static const struct reel_measure *call_named(const char *name)
{
    for EACH(m, calls) if (!strcmp(name, calls[m].name)) return &calls[m];
    return NULL;
}

/* both sides in turn; what both answer is compared */
static void all_times(void)
{
    for (int i = 0; i < GRADES * GRADES; i++) {
        int size = 10 * (i / GRADES) + i % GRADES;
        make_pieces(size);
        for EACH(m, pieces) piece_times(&pieces[m], size);
    }
    for EACH(c, counts)
        for EACH(m, calls) {
            double time[2], read[2];
            int append = !strcmp(calls[m].name, "append");
            call_times(&calls[m], counts[c] - append, time);
            if (append || !strcmp(calls[m].name, "same")) {
                call_times(call_named("read"), counts[c] - append, read);
                for (int s = 0; s < 2; s++) time[s] -= read[s];
            }
            tell("reel", calls[m].name, counts[c], time);
        }
}

/* the engine's copies, where the linker wraps memcpy: counted, or made twice to tell what they take */
#if defined COPIES || defined TWICE
static long copies, copied;
void *__real_memcpy(void *, const void *, size_t);
void *__wrap_memcpy(void *to, const void *from, size_t n)
{
    copies++;
    copied += n;
#ifdef TWICE
    __real_memcpy(to, from, n);
#endif
    return __real_memcpy(to, from, n);
}
#endif

int main(int n, char **word)
{
    if (n == 2 && !strcmp(word[1], "times")) { all_times(); return 0; }
    if (n != 7) return 2;
    int side = !strcmp(word[2], "after"), size = atoi(word[5]), found = 0;
    long rounds = atol(word[6]);
    if (!strcmp(word[3], "piece")) {
        make_pieces(size);
        for EACH(m, pieces) if (!strcmp(word[4], pieces[m].name)) { found = 1; kept = piece_rounds(pieces[m].side[side], size, rounds); }
    } else if (call_named(word[4])) {
        int count = size - !strcmp(word[4], "append");
        found = 1;
        load(count);
        kept = reel_rounds(call_named(word[4])->side[side], word[4], count, rounds);
    }
#ifdef COPIES
    printf("%ld %ld\n", copies, copied);
#endif
    return found ? 0 : 2;
}
