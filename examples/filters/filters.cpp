#include "filter.hpp"

Filter *Filter::chain;

Filter::Filter(const char *name) : name(name), next(nullptr) {
    Filter **end = &chain;
    while (*end)
        end = &(*end)->next;
    *end = this;
}

Filter::~Filter() {
    Filter **place = &chain;
    while (*place != this)
        place = &(*place)->next;
    *place = next;
}

int through_chain(int sample) {
    for (Filter *filter = Filter::chain; filter; filter = filter->next)
        sample = filter->pass(sample);
    return sample;
}

namespace {

class Gain : public Filter {
public:
    Gain(const char *name, int percent) : Filter(name), percent(percent) {}
    int pass(int sample) override { return sample * percent / 100; }

private:
    int percent;
};

class Clip : public Filter {
public:
    Clip(const char *name, int most) : Filter(name), most(most) {}
    int pass(int sample) override { return sample > most ? most : sample < -most ? -most : sample; }

private:
    int most;
};

// The mean of the last samples.
class Mean : public Filter {
public:
    Mean(const char *name, int count) : Filter(name), count(count), last(new int[count]()) {}
    ~Mean() override { delete[] last; }
    int pass(int sample) override {
        last[at++ % count] = sample;
        int sum = 0;
        for (int i = 0; i < count; i++)
            sum += last[i];
        return sum / count;
    }

private:
    int count, at = 0;
    int *last;
};

// They are made before main begins, and end behind it.
Gain gain("gain", 150);
Clip clip("clip", 900);
Mean mean("mean", 8);

}
