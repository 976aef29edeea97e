/*
 * The benchmark: nanoseconds per read and per write of each kind, of the
 * library beside the reference in C, and of the read of a damaged sync.
 *
 * In every round each is timed once, in turn, so that both meet the same
 * machine; the best of all rounds counts. The messages fit in the nearest
 * cache. Assumes that reference.c is built apart, so that no call is inlined.
 */
#define _POSIX_C_SOURCE 199309L

#include "make.h"
#include "reference.h"

#include <stdio.h>
#include <stdlib.h>
#include <time.h>

/* A batch is the same few messages over and over, long enough for the clock. */
enum { MESSAGES = 32, PASSES = 200, ROUNDS = 300 };

typedef uint8_t read_call(const uint8_t *bytes, size_t length, uint64_t *fields, size_t places);
typedef uint8_t write_call(const uint64_t *fields, size_t places, uint8_t *area, size_t room);

/* Of one side: the best times so far. */
struct times {
    read_call *read;
    write_call *write;
    double read_ns, write_ns;
};

struct row {
    const char *name;
    size_t length;
    uint8_t answer; /* of every read */
    uint64_t fields[MESSAGES][NH_FIELDS];
    uint8_t bytes[MESSAGES][NH_LONGEST];
    struct times sides[2];
};

static const char *const names[KINDS + 2] = {
    "", "view", "word", "sync", "forward", "start change", "membership view", "sync, damaged"
};
static struct row rows[KINDS + 2];

static double now(void)
{
    struct timespec t;

    clock_gettime(CLOCK_MONOTONIC, &t);
    return 1e9 * (double)t.tv_sec + (double)t.tv_nsec;
}

/* A batch that gives other answers than it should measures something else. */
static void demand(unsigned long sum, unsigned long expected, const char *name)
{
    if (sum == expected)
        return;
    fprintf(stderr, "%s: a call gave the wrong answer\n", name);
    exit(1);
}

static void prepare(struct row *row, const char *name, uint8_t kind, uint8_t answer)
{
    *row = (struct row){ .name = name, .length = lengths[kind], .answer = answer };
    row->sides[0] = (struct times){ nh_read, nh_write, 1e9, 1e9 };
    row->sides[1] = (struct times){ ref_read, ref_write, 1e9, 1e9 };
    for (int i = 0; i < MESSAGES; i++) {
        make_message(kind, row->fields[i]);
        demand(ref_write(row->fields[i], NH_FIELDS, row->bytes[i], row->length), 0, name);
        /* The last count is the last byte that any reader looks at. */
        if (answer != 0)
            row->bytes[i][NH_LONGEST - 1] = 129;
    }
}

static double time_reads(read_call *read, const struct row *row)
{
    uint64_t fields[NH_FIELDS];
    unsigned long sum = 0;
    double start = now(), end;

    for (int pass = 0; pass < PASSES; pass++)
        for (int i = 0; i < MESSAGES; i++)
            sum += read(row->bytes[i], row->length, fields, NH_FIELDS);
    end = now();
    demand(sum, (unsigned long)row->answer * PASSES * MESSAGES, row->name);
    return (end - start) / (PASSES * MESSAGES);
}

static double time_writes(write_call *write, const struct row *row)
{
    uint8_t area[NH_LONGEST];
    unsigned long sum = 0;
    double start = now(), end;

    for (int pass = 0; pass < PASSES; pass++)
        for (int i = 0; i < MESSAGES; i++)
            sum += write(row->fields[i], NH_FIELDS, area, sizeof area);
    end = now();
    demand(sum, 0, row->name);
    return (end - start) / (PASSES * MESSAGES);
}

static void time_row(struct row *row)
{
    for (int side = 0; side < 2; side++) {
        struct times *best = &row->sides[side];
        double ns = time_reads(best->read, row);

        if (ns < best->read_ns)
            best->read_ns = ns;
        if (row->answer != 0)
            continue;
        ns = time_writes(best->write, row);
        if (ns < best->write_ns)
            best->write_ns = ns;
    }
}

static void print_row(const struct row *row)
{
    const struct times *ours = &row->sides[0], *theirs = &row->sides[1];

    printf("%-16s %8.2f %10.2f %6.2f", row->name, ours->read_ns, theirs->read_ns,
           ours->read_ns / theirs->read_ns);
    if (row->answer == 0)
        printf("  %8.2f %10.2f %6.2f", ours->write_ns, theirs->write_ns,
               ours->write_ns / theirs->write_ns);
    printf("\n");
}

int main(void)
{
    dice_seed(1);
    for (uint8_t kind = 1; kind <= KINDS; kind++)
        prepare(&rows[kind], names[kind], kind, 0);
    prepare(&rows[KINDS + 1], names[KINDS + 1], NH_SYNC, 1);
    for (int round = 0; round < ROUNDS; round++)
        for (int row = 1; row <= KINDS + 1; row++)
            time_row(&rows[row]);
    printf("%-16s %26s  %26s\n", "nanoseconds", "read", "write");
    printf("%-16s %8s %10s %6s  %8s %10s %6s\n", "kind", "archive", "reference", "ratio",
           "archive", "reference", "ratio");
    for (int row = 1; row <= KINDS + 1; row++)
        print_row(&rows[row]);
    return 0;
}
