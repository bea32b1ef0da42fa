#include "waves.hpp"

namespace {

int saw(int time) {
    return time * 37 % 2001 - 1000;
}

int square(int time) {
    return time / 25 % 2 ? 1000 : -1000;
}

int noise(int) {
    static unsigned state = 7;
    state = state * 1664525u + 1013904223u;
    return int(state >> 16) % 2001 - 1000;
}

}

const Wave waves[3] = {{"saw", saw}, {"square", square}, {"noise", noise}};
