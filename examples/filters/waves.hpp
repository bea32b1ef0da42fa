// The signals, by name.
#pragma once

struct Wave {
    const char *name;
    int (*sample)(int time);
};

extern const Wave waves[3];
