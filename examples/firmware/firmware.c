// A sensor node: in each round it takes readings, keeps some of them on the heap, and writes a report of them, of which it
// prints every 150th. Further harts share the checksum at the end.
#include <stdio.h>
#include <stdlib.h>
#include <unistd.h>

#define READINGS 64
#define ROUNDS 600
#define PRINTED 150                         // rounds from one printed report to the next
#define MOST_HARTS 8

struct sample {
    int value;
    struct sample *next;
};

volatile unsigned hart_count;               // set by the start code

static int readings[READINGS];
static struct sample *kept;
static volatile unsigned ready;             // set once the last readings stand
static volatile unsigned shares[MOST_HARTS], done[MOST_HARTS];

// One reading of the simulated sensor, 0 to 1023.
static int sensor(void) {
    static unsigned state = 1;
    state = state * 1103515245u + 12345u;
    return state >> 16 & 1023;
}

// The mean of eight readings.
static int calibrate(void) {
    int sum = 0;
    for (int i = 0; i < 8; i++)
        sum += sensor();
    return sum / 8;
}

static void take_readings(int offset) {
    for (int i = 0; i < READINGS; i++)
        readings[i] = sensor() - offset;
}

static void keep(int value) {
    struct sample *sample = malloc(sizeof *sample);
    if (!sample) {
        fprintf(stderr, "no memory\n");
        _exit(1);
    }
    sample->value = value;
    sample->next = kept;
    kept = sample;
}

// Keeps every eighth reading.
static void keep_some(void) {
    for (int i = 0; i < READINGS; i += 8)
        keep(readings[i]);
}

static void forget(void) {
    while (kept) {
        struct sample *next = kept->next;
        free(kept);
        kept = next;
    }
}

// The sum of n values, by halves.
static int sum(const int *values, int n) {
    if (n == 1)
        return values[0];
    return sum(values, n / 2) + sum(values + n / 2, n - n / 2);
}

static int mean(void) {
    return sum(readings, READINGS) / READINGS;
}

static int peak(void) {
    int most = readings[0];
    for (int i = 1; i < READINGS; i++)
        if (readings[i] > most)
            most = readings[i];
    return most;
}

static int last_kept(void) {
    return kept->value;
}

static const struct {
    const char *name;
    int (*measure)(void);
} reports[] = {{"mean", mean}, {"peak", peak}, {"kept", last_kept}};

static void report(int round) {
    for (int i = 0; i < 3; i++) {
        char line[32];
        snprintf(line, sizeof line, "%s %d", reports[i].name, reports[i].measure());
        if (round % PRINTED == 0)
            puts(line);
    }
}

static unsigned mix(unsigned sum, int value) {
    return (sum << 5 ^ sum >> 27) + value;
}

// The checksum of one hart's share of the readings, block by block of eight.
static unsigned checksum(unsigned hart) {
    unsigned all = 0;
    for (unsigned block = hart; block < READINGS / 8; block += hart_count) {
        unsigned sum = block;
        for (int i = 0; i < 8; i++)
            sum = mix(sum, readings[8 * block + i]);
        all ^= sum;
    }
    return all;
}

// What every hart but the first does.
void help(unsigned hart) {
    while (!ready)
        ;
    __sync_synchronize();
    shares[hart] = checksum(hart);
    done[hart] = 1;
}

int main(void) {
    int offset = calibrate();
    fprintf(stderr, "offset %d, %u harts\n", offset, hart_count);
    for (int round = 0; round < ROUNDS; round++) {
        take_readings(offset);
        keep_some();
        report(round);
        forget();
    }
    __sync_synchronize();
    ready = 1;
    unsigned all = checksum(0);
    for (unsigned hart = 1; hart < hart_count; hart++) {
        while (!done[hart])
            ;
        all ^= shares[hart];
    }
    printf("checksum %08x\n", all);
    return all & 127;                        // the exit status
}
