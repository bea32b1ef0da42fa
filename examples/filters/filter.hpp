// A filter that the samples of a signal go through. Each one that is made puts itself at the end of the chain.
#pragma once

class Filter {
public:
    explicit Filter(const char *name);
    virtual ~Filter();
    virtual int pass(int sample) = 0;

    const char *const name;
    Filter *next;

    static Filter *chain;
};

// A sample that went through all of the chain.
int through_chain(int sample);
