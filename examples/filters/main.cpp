// Sends three signals through a chain of filters, and prints what comes out of each: its least and its greatest sample,
// and the sum of all.
#include "filter.hpp"
#include "waves.hpp"
#include <stdio.h>

static const int TIMES = 500;

static void send(const Wave &wave) {
    int least = 0, most = 0, sum = 0;
    for (int time = 0; time < TIMES; time++) {
        int sample = through_chain(wave.sample(time));
        least = sample < least ? sample : least;
        most = sample > most ? sample : most;
        sum += sample;
    }
    printf("%s: %d to %d, sum %d\n", wave.name, least, most, sum);
}

int main() {
    for (const Filter *filter = Filter::chain; filter; filter = filter->next)
        printf("%s ", filter->name);
    printf("\n");
    for (const Wave &wave : waves)
        send(wave);
    return 0;
}
