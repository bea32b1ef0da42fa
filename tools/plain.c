// The work of rvgprof in plain C, so that tools/speed has something to measure beside. It was written from docs/FORMATS.md
// and docs/MACHINE.md, and shares nothing with the crates. It prints and writes what rvgprof does (tools/checks/plain), of
// files that aren't refused, on one hart, with the default fractions and rate.
//
// usage: plain report ELF GMON.. [--flat] | show GMON | sum OUT GMON.. | run ELF OUT | folded ELF
//        (of a run: [--every N] [--budget N] [--ram MEBIBYTES])

#include <stdint.h>
#include <stdio.h>
#include <stdlib.h>
#include <string.h>

typedef uint8_t u8;
typedef uint16_t u16;
typedef uint32_t u32;
typedef uint64_t u64;
typedef unsigned __int128 u128;

static void fail(const char *why) { fprintf(stderr, "plain: %s\n", why); exit(1); }

static void *room(size_t count, size_t size) {
    void *p = calloc(count + 1, size);
    if (!p) fail("no memory");
    return p;
}

// A list that grows: room for one item more.
#define GROW(list, count, most) do { if ((count) == (most)) { \
    (most) = 2 * (most) + 16; (list) = realloc((list), (most) * sizeof *(list)); if (!(list)) fail("no memory"); } } while (0)

// ---- output

static char out[1 << 16];
static size_t filled;
static FILE *to;

static void flush(void) { fwrite(out, 1, filled, to); filled = 0; }

static char *space_for(size_t n) { if (filled + n > sizeof out) flush(); return out + filled; }

static void put(const char *text, size_t n) {
    if (n > sizeof out) { flush(); fwrite(text, 1, n, to); return; }
    memcpy(space_for(n), text, n);
    filled += n;
}

static void puts_(const char *text) { put(text, strlen(text)); }

static void put_spaces(size_t n) { memset(space_for(n), ' ', n); filled += n; }

static size_t decimal(char *end, u64 n) {
    char *at = end;
    do *--at = '0' + n % 10; while (n /= 10);
    return end - at;
}

static void put_decimal(u64 n) { char text[20]; size_t len = decimal(text + 20, n); put(text + 20 - len, len); }

static void put_right(const char *text, size_t len, size_t width) {
    put_spaces(len < width ? width - len : 1);
    put(text, len);
}

static void put_hex(u32 n) {
    char *at = space_for(8);
    for (int i = 0; i < 8; i++) at[i] = "0123456789abcdef"[n >> (28 - 4 * i) & 15];
    filled += 8;
}

static void put_u32(u32 n) { put((char *)&n, 4); }

// A quotient in hundredths, rounded to the nearest, at the right of a column.
static void put_quotient(u128 num, u64 den, size_t width) {
    char text[44], *at = text + 44;
    u128 doubled = 200 * num + den, wide = 2 * (u128)den;
    u64 hundredths = doubled >> 64 || wide >> 64 ? doubled / wide : (u64)doubled / (u64)wide;
    *--at = '0' + hundredths % 10;
    *--at = '0' + hundredths / 10 % 10;
    *--at = '.';
    at -= decimal(at, hundredths / 100);
    put_right(at, text + 44 - at, width);
}

// ---- files

static u8 *content(const char *name, size_t *size) {
    FILE *file = fopen(name, "rb");
    if (!file) fail("a file isn't there");
    fseek(file, 0, SEEK_END);
    *size = ftell(file);
    rewind(file);
    u8 *bytes = room(*size, 1);
    if (fread(bytes, 1, *size, file) != *size) fail("a file wasn't read");
    fclose(file);
    return bytes;
}

static u32 u16_at(const u8 *p) { u16 n; memcpy(&n, p, 2); return n; }
static u32 u32_at(const u8 *p) { u32 n; memcpy(&n, p, 4); return n; }

// ---- programs

struct symbol { u32 addr, rank, number, len; const char *name; };
static u8 *elf;
static u32 low = UINT32_MAX, high, mcount_at = 1, moncontrol_at = 1;
static struct symbol *symbols;
static u32 functions;

static int by_bytes(const char *a, u32 la, const char *b, u32 lb) {
    int c = memcmp(a, b, la < lb ? la : lb);
    return c ? c : (la > lb) - (la < lb);
}

static int by_rank(const void *p, const void *q) {
    const struct symbol *a = p, *b = q;
    if (a->addr != b->addr) return a->addr < b->addr ? -1 : 1;
    if (a->rank != b->rank) return a->rank < b->rank ? -1 : 1;
    int c = by_bytes(a->name, a->len, b->name, b->len);
    return c ? c : (a->number > b->number) - (a->number < b->number);
}

static void read_symbols(const u8 *sections, const u8 *table) {
    const char *strings = (char *)elf + u32_at(sections + 40 * u32_at(table + 24) + 16);
    u32 count = u32_at(table + 20) / 16, kept = 0;
    symbols = room(count, sizeof *symbols);
    for (u32 i = 1; i < count; i++) {
        const u8 *s = elf + u32_at(table + 16) + 16 * i;
        u32 value = u32_at(s + 4), binding = s[12] >> 4, type = s[12] & 15, index = u16_at(s + 14);
        const u8 *section = sections + 40 * index;
        if (index >= u16_at(elf + 48) || !(type == 2 || (type == 0 && (binding == 1 || binding == 2)))) continue;
        if ((u32_at(section + 8) & 6) != 6 || u32_at(section + 4) == 8) continue;
        if (value < u32_at(section + 12) || value - u32_at(section + 12) >= u32_at(section + 20)) continue;
        const char *name = strings + u32_at(s);
        u32 len = strnlen(name, 4095), bound = binding == 1 ? 0 : binding == 2 ? 1 : 2;
        if (!len) continue;
        if (mcount_at == 1 && !strcmp(name, "_mcount")) mcount_at = value;
        if (moncontrol_at == 1 && !strcmp(name, "moncontrol")) moncontrol_at = value;
        symbols[kept++] = (struct symbol){value, 2 * bound + (type != 2), i, len, name};
    }
    qsort(symbols, kept, sizeof *symbols, by_rank);
    for (u32 i = 0; i < kept; i++)
        if (!i || symbols[i].addr != symbols[functions - 1].addr) symbols[functions++] = symbols[i];
}

static void read_program(const char *name) {
    size_t size;
    elf = content(name, &size);
    const u8 *sections = elf + u32_at(elf + 32), *table = NULL;
    for (u32 i = 0; i < u16_at(elf + 48); i++) {
        const u8 *s = sections + 40 * i;
        if (u32_at(s + 4) == 2 && !table) table = s;
        if ((u32_at(s + 8) & 6) != 6 || u32_at(s + 4) == 8 || !u32_at(s + 20)) continue;
        if (u32_at(s + 12) < low) low = u32_at(s + 12);
        if (u32_at(s + 12) + u32_at(s + 20) > high) high = u32_at(s + 12) + u32_at(s + 20);
    }
    if (table) read_symbols(sections, table);
}

static u32 end_of(u32 f) { return f + 1 < functions ? symbols[f + 1].addr : high; }

// The function in which an address lies, or -1.
static int owner(u32 addr) {
    u32 from = 0, below = functions;
    if (addr >= high) return -1;
    while (from < below) {
        u32 mid = (from + below) / 2;
        if (symbols[mid].addr <= addr) from = mid + 1; else below = mid;
    }
    return (int)from - 1;
}

// ---- profiles

struct hist { u32 low, high, count; u64 *counts; };
struct counted { u32 from, to; u64 count; };
// Counts of pairs, or of addresses, in the order in which these came first; the table has the places, from 1 on.
struct tally { struct counted *items; u32 *table; size_t count, most, slots; };
static struct hist *hists;
static size_t hist_count, hist_most;
static struct tally arcs, blocks;
static u8 unit[20];

static u32 hash_of(u32 from, u32 to) { return (((u64)from << 32 | to) * 0x9E3779B97F4A7C15u) >> 32; }

static void add_to(struct tally *t, u32 from, u32 to, u64 count) {
    if (2 * t->count >= t->slots) {
        t->slots = t->slots ? 2 * t->slots : 1024;
        free(t->table);
        t->table = room(t->slots, 4);
        for (size_t i = 0; i < t->count; i++) {
            size_t at = hash_of(t->items[i].from, t->items[i].to) & (t->slots - 1);
            while (t->table[at]) at = (at + 1) & (t->slots - 1);
            t->table[at] = i + 1;
        }
    }
    size_t at = hash_of(from, to) & (t->slots - 1);
    for (; t->table[at]; at = (at + 1) & (t->slots - 1)) {
        struct counted *item = &t->items[t->table[at] - 1];
        if (item->from == from && item->to == to) { item->count += count; return; }
    }
    GROW(t->items, t->count, t->most);
    t->items[t->count++] = (struct counted){from, to, count};
    t->table[at] = t->count;
}

static void add_hist(u32 from, u32 below, u32 count, const u8 *counters, const u8 *its_unit) {
    size_t i = 0;
    if (!count) return;
    if (!hist_count) memcpy(unit, its_unit, 20);
    while (i < hist_count && (hists[i].low != from || hists[i].high != below)) i++;
    if (i == hist_count) {
        GROW(hists, hist_count, hist_most);
        hists[hist_count++] = (struct hist){from, below, count, room(count, 8)};
    }
    for (u32 k = 0; k < count; k++) hists[i].counts[k] += u16_at(counters + 2 * k);
}

static void show_counts(u32 from, u32 below, u32 count, const u8 *counters) {
    for (u32 i = 0; i < count; i++) {
        if (!u16_at(counters + 2 * i)) continue;
        puts_("count "), put_hex(from + (u64)i * (below - from) / count), puts_(" ");
        put_decimal(u16_at(counters + 2 * i)), puts_("\n");
    }
}

static void show_head(const char *form, const u8 *p, u32 count, u32 rate) {
    puts_(form), puts_(" low "), put_hex(u32_at(p)), puts_(" high "), put_hex(u32_at(p + 4));
    puts_(" counters "), put_decimal(count), puts_(" rate "), put_decimal(rate);
}

static void take_arc(const u8 *p, int shown) {
    if (!shown) { add_to(&arcs, u32_at(p), u32_at(p + 4), u32_at(p + 8)); return; }
    puts_("arc "), put_hex(u32_at(p)), puts_(" "), put_hex(u32_at(p + 4)), puts_(" ");
    put_decimal(u32_at(p + 8)), puts_("\n");
}

static void take_hist(const u8 *p, int shown) {
    u32 count = u32_at(p + 8);
    if (!shown) { add_hist(u32_at(p), u32_at(p + 4), count, p + 32, p + 12); return; }
    show_head("hist", p, count, u32_at(p + 12)), puts_(" unit ");
    for (int i = 16; i < 32; i++) { char t[3]; sprintf(t, "%02x", p[i]); puts_(t); }
    puts_("\n"), show_counts(u32_at(p), u32_at(p + 4), count, p + 32);
}

static void take_blocks(const u8 *p, int shown) {
    if (shown) puts_("blocks "), put_decimal(u32_at(p)), puts_("\n");
    for (u32 i = 0; i < u32_at(p); i++) {
        const u8 *pair = p + 4 + 8 * i;
        if (!shown) { add_to(&blocks, u32_at(pair), 0, u32_at(pair + 4)); continue; }
        puts_("block "), put_hex(u32_at(pair)), puts_(" "), put_decimal(u32_at(pair + 4)), puts_("\n");
    }
}

// Shows the records of a file, or adds them.
static void take_profile(const char *name, int shown) {
    size_t size;
    u8 *all = content(name, &size), *p = all + 20, *end = all + size;
    if (size >= 4 && !memcmp(all, "gmon", 4)) {
        if (shown) puts_("gnu\n");
        while (p < end) {
            u8 *fields = p + 1;
            switch (*p) {
            case 0: take_hist(fields, shown); p = fields + 32 + 2 * (size_t)u32_at(fields + 8); break;
            case 1: take_arc(fields, shown); p = fields + 12; break;
            case 2: take_blocks(fields, shown); p = fields + 4 + 8 * (size_t)u32_at(fields); break;
            default: fail("no record");
            }
        }
    } else {
        u8 usual[20] = {0};
        u32 ncnt = u32_at(all + 8), count = (ncnt - 32) / 2;
        memcpy(usual, all + 16, 4), memcpy(usual + 4, "seconds", 7), usual[19] = 's';
        if (shown) show_head("bsd", all, count, u32_at(all + 16)), puts_("\n"), show_counts(u32_at(all), u32_at(all + 4), count, all + 32);
        else add_hist(u32_at(all), u32_at(all + 4), count, all + 32, usual);
        for (p = all + ncnt; p < end; p += 12) take_arc(p, shown);
    }
    free(all);
}

static int by_low(const void *p, const void *q) {
    const struct hist *a = p, *b = q;
    return (a->low > b->low) - (a->low < b->low);
}

static void write_sum(const char *name) {
    if (!(to = fopen(name, "wb"))) fail("no file");
    put("gmon\1\0\0\0\0\0\0\0\0\0\0\0\0\0\0\0", 20);
    qsort(hists, hist_count, sizeof *hists, by_low);
    for (size_t i = 0; i < hist_count; i++)
        for (int more = 1; more;) {
            more = 0;
            put("\0", 1), put_u32(hists[i].low), put_u32(hists[i].high), put_u32(hists[i].count), put((char *)unit, 20);
            for (u32 k = 0; k < hists[i].count; k++) {
                u64 *left = &hists[i].counts[k];
                u16 part = *left < 65535 ? *left : 65535;
                put((char *)&part, 2);
                more |= (*left -= part) != 0;
            }
        }
    for (size_t i = 0; i < arcs.count; i++) {
        u64 left = arcs.items[i].count;
        do {
            u32 part = left < UINT32_MAX ? left : UINT32_MAX;
            put("\1", 1), put_u32(arcs.items[i].from), put_u32(arcs.items[i].to), put_u32(part);
            left -= part;
        } while (left);
    }
    for (size_t more = blocks.count, first = 1; more; first = 0) {
        put("\2", 1), put_u32(more);
        more = 0;
        for (size_t i = 0; i < blocks.count; i++) {
            u64 *left = &blocks.items[i].count;
            if (!*left && !first) continue;
            u32 part = *left < UINT32_MAX ? *left : UINT32_MAX;
            put_u32(blocks.items[i].from), put_u32(part);
            more += (*left -= part) != 0;
        }
    }
    flush(), fclose(to);
}

// ---- shares

static u64 *share, attributed, outside;
static u32 rate;

// Of the grains of a bucket, those below an address. Addresses are times the number of counters.
static u64 grains_below(u64 addr, u64 from, u64 width, u64 count) {
    if (addr <= from) return 0;
    if (addr >= from + width) return count * 1000000;
    return (u128)count * 1000000 * (addr - from) / width;
}

static void find_shares(void) {
    share = room(functions, 8);
    rate = hist_count && u32_at(unit) ? u32_at(unit) : 100;
    for (size_t i = 0; i < hist_count; i++) {
        struct hist *h = &hists[i];
        u64 n = h->count, width = h->high - h->low;
        u32 f = 0;
        for (u32 k = 0; k < n; k++) {
            u64 from = h->low * n + k * width, given = 0;
            if (!h->counts[k]) continue;
            while (f < functions && end_of(f) * n <= from) f++;
            for (u32 g = f; g < functions && symbols[g].addr * n < from + width; g++) {
                u64 grains = grains_below(end_of(g) * n, from, width, h->counts[k]) - grains_below(symbols[g].addr * n, from, width, h->counts[k]);
                share[g] += grains, given += grains;
            }
            attributed += given, outside += h->counts[k] * 1000000 - given;
        }
    }
}

// ---- the graph and its flow

struct arc { u32 from, to; u64 count, before, own, child; };
static struct arc *graph;
static u32 arc_count, components;
static u64 *self_calls, *called, *time_self, *time_child, *member_child, *entering, *inner;
static u32 *first, *component, *head, *size_of, *members, *member_first;

// Places of numbers below n in ascending order of their keys below keys: first[k] is where those of key k begin.
#define SORTED(order, starts, keys, n, key) do { \
    (starts) = room((keys) + 1, 4); (order) = room((n), 4); \
    for (u32 i = 0; i < (n); i++) (starts)[(key) + 1]++; \
    for (u32 i = 0; i < (keys); i++) (starts)[i + 1] += (starts)[i]; \
    for (u32 i = 0; i < (n); i++) (order)[(starts)[key]++] = i; \
    for (u32 i = (keys); i > 0; i--) (starts)[i] = (starts)[i - 1]; \
    (starts)[0] = 0; } while (0)

static void find_arcs(void) {
    struct arc *found = room(arcs.count, sizeof *found), *by_callee = room(arcs.count, sizeof *found);
    u32 count = 0, *order, *starts;
    self_calls = room(functions, 8), called = room(functions, 8);
    for (size_t i = 0; i < arcs.count; i++) {
        int from = owner(arcs.items[i].from), callee = owner(arcs.items[i].to);
        if (from < 0 || callee < 0 || !arcs.items[i].count) continue;
        if (from == callee) self_calls[from] += arcs.items[i].count;
        else found[count++] = (struct arc){from, callee, arcs.items[i].count, 0, 0, 0}, called[callee] += arcs.items[i].count;
    }
    SORTED(order, starts, functions, count, found[i].to);
    for (u32 i = 0; i < count; i++) by_callee[i] = found[order[i]];
    free(order), free(starts);
    SORTED(order, starts, functions, count, by_callee[i].from);
    graph = found;
    for (u32 i = 0; i < count; i++) {
        struct arc *a = &by_callee[order[i]];
        if (arc_count && graph[arc_count - 1].from == a->from && graph[arc_count - 1].to == a->to) graph[arc_count - 1].count += a->count;
        else graph[arc_count++] = *a;
    }
    free(by_callee), free(order), free(starts);
    first = room(functions + 1, 4);
    for (u32 i = 0; i < arc_count; i++) first[graph[i].from + 1]++;
    for (u32 f = 0; f < functions; f++) first[f + 1] += first[f];
}

// Tarjan's components. They are numbered by level, then by head, the least member.
static void find_components(void) {
    u32 n = functions, *seen = room(n, 4), *least = room(n, 4), *next = room(n, 4), *path = room(n, 4), *open = room(n, 4);
    u32 *leader = room(n, 4), *level = room(n, 4), *order, *starts, *heads = room(n, 4), clock = 0, opened = 0, deepest = 0;
    for (u32 root = 0; root < n; root++) {
        u32 depth = 0;
        if (seen[root]) continue;
        path[0] = root, depth = 1;
        while (depth) {
            u32 f = path[depth - 1];
            if (!seen[f]) seen[f] = least[f] = ++clock, next[f] = first[f], open[opened++] = f;
            while (next[f] < first[f + 1]) {
                u32 g = graph[next[f]].to;
                if (!seen[g]) break;
                if (seen[g] != UINT32_MAX && least[g] < least[f]) least[f] = least[g];
                next[f]++;
            }
            if (next[f] < first[f + 1]) { path[depth++] = graph[next[f]].to; continue; }
            depth--;
            if (least[f] != seen[f]) continue;
            u32 from = opened, lead = f, highest = 0;
            do if (open[--from] < lead) lead = open[from]; while (open[from] != f);
            for (u32 i = from; i < opened; i++) leader[open[i]] = lead;
            for (u32 i = from; i < opened; i++)
                for (u32 k = first[open[i]]; k < first[open[i] + 1]; k++) {
                    u32 other = leader[graph[k].to];
                    if (seen[graph[k].to] == UINT32_MAX && level[other] + 1 > highest) highest = level[other] + 1;
                }
            for (u32 i = from; i < opened; i++) seen[open[i]] = UINT32_MAX;
            level[lead] = highest, opened = from;
            if (highest > deepest) deepest = highest;
        }
    }
    for (u32 f = 0; f < n; f++) if (leader[f] == f) heads[components++] = f;
    SORTED(order, starts, deepest + 1, components, level[heads[i]]);
    component = room(n, 4), head = room(components, 4), size_of = room(components, 4);
    for (u32 c = 0; c < components; c++) head[c] = heads[order[c]], component[head[c]] = c;
    for (u32 f = 0; f < n; f++) component[f] = component[leader[f]], size_of[component[f]]++;
    SORTED(members, member_first, components, n, component[i]);
}

static u64 part(u64 time, u64 calls, u64 whole) {
    u128 product = (u128)time * calls;
    return product >> 64 ? product / whole : (u64)product / whole;
}

static void find_flow(void) {
    time_self = room(components, 8), time_child = room(components, 8), member_child = room(functions, 8);
    entering = room(components, 8), inner = room(components, 8);
    for (u32 f = 0; f < functions; f++) time_self[component[f]] += share[f];
    for (u32 i = 0; i < arc_count; i++) {
        u32 c = component[graph[i].to];
        if (component[graph[i].from] == c) { inner[c] += graph[i].count; continue; }
        graph[i].before = entering[c];
        entering[c] += graph[i].count;
    }
    for (u32 k = 0; k < functions; k++) {
        u32 f = members[k], c = component[f];
        for (u32 i = first[f]; i < first[f + 1]; i++) {
            struct arc *a = &graph[i];
            u32 d = component[a->to];
            if (d == c) continue;
            a->own = part(time_self[d], a->before + a->count, entering[d]) - part(time_self[d], a->before, entering[d]);
            a->child = part(time_child[d], a->before + a->count, entering[d]) - part(time_child[d], a->before, entering[d]);
            member_child[f] += a->own + a->child;
        }
        time_child[c] += member_child[f];
    }
}

// ---- reports

struct row { u64 key, second; u32 len, f, rank; const char *name; };

static int by_row(const void *p, const void *q) {
    const struct row *a = p, *b = q;
    if (a->key != b->key) return a->key > b->key ? -1 : 1;
    if (a->second != b->second) return a->second > b->second ? -1 : 1;
    int c = by_bytes(a->name, a->len, b->name, b->len);
    if (c) return c;
    return a->f != b->f ? (a->f < b->f ? -1 : 1) : (int)a->rank - (int)b->rank;
}

static void put_percent(u64 time, size_t width) { put_quotient(attributed ? (u128)100 * time : 0, attributed ? attributed : 1, width); }
static void put_seconds(u64 time, size_t width) { put_quotient(time, (u64)1000000 * rate, width); }

static void print_flat(void) {
    struct row *rows = room(functions, sizeof *rows);
    u32 count = 0;
    u64 sum = 0, second = (u64)1000000 * rate;
    for (u32 f = 0; f < functions; f++)
        if (share[f] || called[f] + self_calls[f])
            rows[count++] = (struct row){share[f], called[f] + self_calls[f], symbols[f].len, f, 0, symbols[f].name};
    qsort(rows, count, sizeof *rows, by_row);
    puts_("flat profile\nattributed "), put_decimal(attributed), puts_(", outside "), put_decimal(outside);
    puts_(", rate "), put_decimal(rate);
    puts_("\n  %time   cumulative       self      calls  self ms/call  total ms/call  name\n");
    for (u32 i = 0; i < count; i++) {
        struct row *r = &rows[i];
        sum += r->key;
        put_percent(r->key, 7), put_seconds(sum, 13), put_seconds(r->key, 11);
        if (r->second) {
            char text[20];
            size_t len = decimal(text + 20, r->second);
            put_right(text + 20 - len, len, 11);
            put_quotient((u128)1000 * r->key, second * r->second, 14);
            put_quotient((u128)1000 * (r->key + member_child[r->f]), second * r->second, 15);
        } else put_spaces(40);
        put_spaces(2), put(r->name, r->len), puts_("\n");
    }
    free(rows);
}

static char **label;
static u32 *label_len, *number, *cycle_number, *cycle_entry;

// Two times, and a number with another behind a mark, if it has one.
static void put_columns(int timed, u64 own, u64 child, int has, u64 a, char mark, u64 b) {
    char text[44], *at = text + 44;
    if (timed) put_seconds(own, 12), put_seconds(child, 12); else put_spaces(24);
    if (mark) at -= decimal(at, b), *--at = mark;
    if (has) at -= decimal(at, a);
    put_right(at, text + 44 - at, 22);
}

static void put_other(const struct arc *a, u32 named) {
    u32 c = component[a->to], is_inner = component[a->from] == c;
    put_spaces(15), put_columns(!is_inner, a->own, a->child, 1, a->count, is_inner ? 0 : '/', entering[c]);
    put_spaces(6), put(label[named], label_len[named]);
}

static void put_function_columns(u32 f) {
    put_columns(1, share[f], member_child[f], called[f] || self_calls[f], called[f], self_calls[f] ? '+' : 0, self_calls[f]);
}

static void put_front(u32 index, u64 total) {
    char text[24], *at = text + 24;
    *--at = ']', at -= decimal(at, index), *--at = '[';
    size_t len = text + 24 - at;
    put(at, len), put_spaces(len < 8 ? 8 - len : 0), put_percent(total, 7);
}

static void put_spontaneous(void) { put_spaces(67), puts_("<spontaneous>\n"); }

static void make_labels(const struct row *rows, u32 count) {
    label = room(functions, sizeof *label), label_len = room(functions, 4), number = room(functions, 4);
    cycle_entry = room(components, 4);
    for (u32 i = 0; i < count; i++)
        if (rows[i].rank) number[rows[i].f] = i + 1; else cycle_entry[component[rows[i].f]] = i + 1;
    for (u32 f = 0; f < functions; f++) {
        char tail[64];
        u32 c = component[f];
        int len = size_of[c] > 1 ? sprintf(tail, " <cycle %u> [%u]\n", cycle_number[c], number[f]) : sprintf(tail, " [%u]\n", number[f]);
        label[f] = room(symbols[f].len + len, 1), label_len[f] = symbols[f].len + len;
        memcpy(label[f], symbols[f].name, symbols[f].len), memcpy(label[f] + symbols[f].len, tail, len);
    }
}

static void print_graph(void) {
    struct row *rows = room(functions + components, sizeof *rows);
    u32 count = 0, cycles = 0, *into, *into_first, *entered, *entered_first;
    cycle_number = room(components, 4);
    SORTED(into, into_first, functions, arc_count, graph[i].to);
    SORTED(entered, entered_first, components, arc_count, component[graph[i].to]);
    for (u32 f = 0; f < functions; f++) {
        u32 c = component[f];
        if (head[c] == f && size_of[c] > 1) {
            char *name = room(40, 1);
            cycle_number[c] = ++cycles;
            int len = sprintf(name, "<cycle %u as a whole>", cycles);
            rows[count++] = (struct row){time_self[c] + time_child[c], 0, len, f, 0, name};
        }
        if (share[f] + member_child[f] || called[f] || self_calls[f] || first[f] < first[f + 1])
            rows[count++] = (struct row){share[f] + member_child[f], 0, symbols[f].len, f, 1, symbols[f].name};
    }
    qsort(rows, count, sizeof *rows, by_row);
    make_labels(rows, count);
    puts_("call graph\nindex     %time        self    children                called  name\n");
    for (u32 i = 0; i < count; i++) {
        u32 f = rows[i].f, c = component[f], is_alone = 1;
        u32 *list = rows[i].rank ? into + into_first[f] : entered + entered_first[c];
        u32 arcs_in = rows[i].rank ? into_first[f + 1] - into_first[f] : entered_first[c + 1] - entered_first[c];
        for (u32 k = 0; k < arcs_in; k++) {
            struct arc *a = &graph[list[k]];
            if (rows[i].rank || component[a->from] != c) put_other(a, a->from), is_alone = 0;
        }
        if (is_alone) put_spontaneous();
        put_front(i + 1, rows[i].key);
        if (rows[i].rank) {
            put_function_columns(f), put_spaces(2), put(label[f], label_len[f]);
            for (u32 k = first[f]; k < first[f + 1]; k++) put_other(&graph[k], graph[k].to);
        } else {
            put_columns(1, time_self[c], time_child[c], 1, entering[c], '+', inner[c]);
            put_spaces(2), put(rows[i].name, rows[i].len), puts_(" ["), put_decimal(i + 1), puts_("]\n");
            for (u32 k = member_first[c]; k < member_first[c + 1]; k++) {
                put_spaces(15), put_function_columns(members[k]), put_spaces(6), put(label[members[k]], label_len[members[k]]);
            }
        }
        puts_("------------------------------------------------------------------------\n");
    }
}

// ---- runs

static u32 every = 1000, budget = 100000000, ram_size = 64, base, mem_end, brk_first, brk_at;
static u8 *ram;
static u32 x[32], pc, retired, samples, on = 1, is_error;
static u32 text_low, text_high, entries, given, calls;
static u16 *counters, *froms;
static struct { u32 callee, count; u16 link; } *tos;
static const char *ending;
static char ending_text[64];

static void start(void) {
    u32 bottom = UINT32_MAX, top = 0;
    for (u32 i = 0; i < u16_at(elf + 44); i++) {
        const u8 *h = elf + u32_at(elf + 28) + 32 * i;
        if (u32_at(h) != 1 || !u32_at(h + 20)) continue;
        if (u32_at(h + 8) < bottom) bottom = u32_at(h + 8);
        if (u32_at(h + 8) + u32_at(h + 20) > top) top = u32_at(h + 8) + u32_at(h + 20);
    }
    base = bottom & ~4095u, ram_size <<= 20, mem_end = base + ram_size, ram = room(ram_size, 1);
    for (u32 i = 0; i < u16_at(elf + 44); i++) {
        const u8 *h = elf + u32_at(elf + 28) + 32 * i;
        u32 size = u32_at(h + 16) < u32_at(h + 20) ? u32_at(h + 16) : u32_at(h + 20);
        if (u32_at(h) == 1 && u32_at(h + 20)) memcpy(ram + (u32_at(h + 8) - base), elf + u32_at(h + 4), size);
    }
    pc = u32_at(elf + 24), x[11] = 1, x[2] = mem_end - 16, brk_first = brk_at = (top + 15) & ~15u;
    text_low = low & ~3u, text_high = (high + 3) & ~3u;
    counters = room((text_high - text_low) / 4, 2), froms = room((text_high - text_low) / 4, 2);
    entries = 2 * (u64)(text_high - text_low) / 100;
    entries = entries < 50 ? 50 : entries > 65534 ? 65534 : entries;
    tos = room(entries, sizeof *tos);
}

static int trap(const char *kind) {
    sprintf(ending_text, "trap %s at %08x", kind, pc);
    ending = ending_text;
    return 0;
}

static int is_inside(u32 addr, u32 size) { return addr >= base && addr - base <= ram_size - size; }

// An environment call. It answers whether the run goes on.
static int ecall(void) {
    u32 a = x[10];
    switch (x[17]) {
    case 93: sprintf(ending_text, "exit %u", a); ending = ending_text; return 0;
    case 64:
        if (a != 1 && a != 2) { x[10] = -9; break; }
        if (!x[12]) { x[10] = 0; break; }
        if (x[12] > ram_size || !is_inside(x[11], x[12])) { x[10] = -14; break; }
        fwrite(ram + (x[11] - base), 1, x[12], a == 1 ? stdout : stderr), x[10] = x[12];
        break;
    case 214:
        if (a >= brk_first && a <= mem_end - 2097152) brk_at = a;
        x[10] = brk_at;
        break;
    default: x[10] = -38;
    }
    return 1;
}

// One instruction. It answers whether it retired.
static inline __attribute__((always_inline)) int step(void) {
    if (pc & 3 || !is_inside(pc, 4)) return trap("fetch-outside");
    u32 w = u32_at(ram + (pc - base)), rd = w >> 7 & 31, f3 = w >> 12 & 7, f7 = w >> 25, next = pc + 4;
    u32 a = x[w >> 15 & 31], b = x[w >> 20 & 31], value = 0, addr;
    int32_t i = (int32_t)w >> 20;
    if ((w & 3) != 3) return trap("illegal");
    switch (w >> 2 & 31) {
    case 0x37 >> 2: value = w & 0xFFFFF000; break;
    case 0x17 >> 2: value = pc + (w & 0xFFFFF000); break;
    case 0x6F >> 2:
        value = next;
        next = pc + ((int32_t)(w & 0x80000000) >> 11 | (w & 0xFF000) | (w >> 9 & 0x800) | (w >> 20 & 0x7FE));
        if (next & 3) return trap("jump-misaligned");
        break;
    case 0x67 >> 2:
        if (f3) return trap("illegal");
        value = next, next = (a + i) & ~1u;
        if (next & 3) return trap("jump-misaligned");
        break;
    case 0x63 >> 2: {
        int taken;
        switch (f3) {
        case 0: taken = a == b; break;
        case 1: taken = a != b; break;
        case 4: taken = (int32_t)a < (int32_t)b; break;
        case 5: taken = (int32_t)a >= (int32_t)b; break;
        case 6: taken = a < b; break;
        case 7: taken = a >= b; break;
        default: return trap("illegal");
        }
        if (taken) next = pc + ((int32_t)(w & 0x80000000) >> 19 | (w << 4 & 0x800) | (w >> 20 & 0x7E0) | (w >> 7 & 0x1E));
        if (next & 3) return trap("jump-misaligned");
        rd = 0;
        break;
    }
    case 0x03 >> 2: {
        u32 size = 1u << (f3 & 3);
        if (f3 == 3 || f3 > 5) return trap("illegal");
        addr = a + i;
        if (addr & (size - 1)) return trap("load-misaligned");
        if (!is_inside(addr, size)) return trap("load-outside");
        u8 *p = ram + (addr - base);
        switch (f3) {
        case 0: value = (int8_t)*p; break;
        case 1: value = (int16_t)u16_at(p); break;
        case 2: value = u32_at(p); break;
        case 4: value = *p; break;
        case 5: value = u16_at(p); break;
        }
        break;
    }
    case 0x23 >> 2: {
        u32 size = 1u << f3;
        if (f3 > 2) return trap("illegal");
        addr = a + ((int32_t)(w & 0xFE000000) >> 20 | (w >> 7 & 31));
        if (addr & (size - 1)) return trap("store-misaligned");
        if (!is_inside(addr, size)) return trap("store-outside");
        memcpy(ram + (addr - base), &b, size);
        rd = 0;
        break;
    }
    case 0x13 >> 2:
        switch (f3) {
        case 0: value = a + i; break;
        case 1: if (f7) return trap("illegal"); value = a << (i & 31); break;
        case 2: value = (int32_t)a < i; break;
        case 3: value = a < (u32)i; break;
        case 4: value = a ^ i; break;
        case 5: if (f7 & ~0x20u) return trap("illegal"); value = f7 ? (u32)((int32_t)a >> (i & 31)) : a >> (i & 31); break;
        case 6: value = a | i; break;
        case 7: value = a & i; break;
        }
        break;
    case 0x33 >> 2:
        switch (f7 << 3 | f3) {
        case 0x000: value = a + b; break;
        case 0x100: value = a - b; break;
        case 0x001: value = a << (b & 31); break;
        case 0x002: value = (int32_t)a < (int32_t)b; break;
        case 0x003: value = a < b; break;
        case 0x004: value = a ^ b; break;
        case 0x005: value = a >> (b & 31); break;
        case 0x105: value = (int32_t)a >> (b & 31); break;
        case 0x006: value = a | b; break;
        case 0x007: value = a & b; break;
        case 0x008: value = a * b; break;
        case 0x009: value = (int64_t)(int32_t)a * (int32_t)b >> 32; break;
        case 0x00A: value = (int64_t)(int32_t)a * (int64_t)b >> 32; break;
        case 0x00B: value = (u64)a * b >> 32; break;
        case 0x00C: value = !b ? UINT32_MAX : a == 0x80000000 && b == UINT32_MAX ? a : (u32)((int32_t)a / (int32_t)b); break;
        case 0x00D: value = b ? a / b : UINT32_MAX; break;
        case 0x00E: value = !b ? a : a == 0x80000000 && b == UINT32_MAX ? 0 : (u32)((int32_t)a % (int32_t)b); break;
        case 0x00F: value = b ? a % b : a; break;
        default: return trap("illegal");
        }
        break;
    case 0x0F >> 2: if (f3 > 1) return trap("illegal"); rd = 0; break;
    case 0x73 >> 2:
        if (w == 0x00100073) return trap("breakpoint");
        if (w != 0x00000073) return trap("illegal");
        if (ecall()) pc = next;
        return 1;
    default: return trap("illegal");
    }
    x[rd] = value, x[0] = 0, pc = next;
    return 1;
}

// Counts a call, as 4.4BSD's mcount does.
static void count_call(u32 site, u32 callee) {
    if (!on || is_error || site < text_low || site >= text_high) return;
    u16 *slot = &froms[(site - text_low) / 4], *link = slot;
    while (*link && tos[*link].callee != callee) link = &tos[*link].link;
    u16 found = *link;
    if (found) *link = tos[found].link;
    else if (given + 1 == entries) { is_error = 1; return; }
    else found = ++given, tos[found].callee = callee;
    calls++, tos[found].count++, tos[found].link = *slot, *slot = found;
}

// A turn, but for the sample. It answers whether an instruction retired.
static inline __attribute__((always_inline)) int turn(void) {
    if (!step()) return 0;
    retired++;
    return 1;
}

static inline int serve(void) {
    if (pc != mcount_at && pc != moncontrol_at) return 0;
    if (pc == mcount_at) count_call(x[10], x[1]); else on = x[10] != 0;
    u32 next = x[1] & ~1u;
    if (next & 3) return trap("jump-misaligned");
    pc = next;
    return 1;
}

static void end_line(void) {
    const char *state = is_error ? "error" : on ? "on" : "off";
    fflush(stdout);
    fprintf(stderr, "rvgprof: %s after %u instructions: %u samples, %u calls, 0 lost, arcs %s\n", ending ? ending : "budget", retired, samples, calls, state);
}

static void run(const char *name) {
    u32 due = every;
    while (!ending && retired < budget && turn() && !ending) {
        if (--due == 0) {
            due = every;
            if (on && pc >= text_low && pc < text_high) {
                u16 *counter = &counters[(pc - text_low) / 4];
                samples++, *counter += *counter != 65535;
            }
        }
        serve();
    }
    if (!(to = fopen(name, "wb"))) fail("no file");
    put_u32(text_low), put_u32(text_high), put_u32(32 + (text_high - text_low) / 2), put_u32(0x51879), put_u32(100);
    put("\0\0\0\0\0\0\0\0\0\0\0\0", 12);
    for (u32 i = 0; i < (text_high - text_low) / 4; i++) put((char *)&counters[i], 2);
    for (u32 i = 0; i < (text_high - text_low) / 4; i++)
        for (u32 k = froms[i]; k; k = tos[k].link) put_u32(text_low + 4 * i), put_u32(tos[k].callee), put_u32(tos[k].count);
    flush(), fclose(to);
    end_line();
}

// ---- stacks

struct node { u64 count; int f; u32 first, next; };
static struct node *nodes;
static size_t node_count, node_most;
static int path[130];

// The node of a function below another, made where it isn't there. The one that was asked for last comes first.
static u32 below(u32 parent, int f) {
    u32 before = 0, at = nodes[parent].first;
    while (at && nodes[at].f != f) before = at, at = nodes[at].next;
    if (at && !before) return at;
    if (at) nodes[before].next = nodes[at].next;
    else {
        GROW(nodes, node_count, node_most);
        at = node_count++, nodes[at] = (struct node){0, f, 0, 0};
    }
    nodes[at].next = nodes[parent].first, nodes[parent].first = at;
    return at;
}

static int by_function(const void *p, const void *q) {
    int a = nodes[*(u32 *)p].f, b = nodes[*(u32 *)q].f;
    return (a > b) - (a < b);
}

static void print_stacks(u32 at, u32 depth) {
    u32 count = 0, most = 0, *list = NULL;
    if (at) path[depth++] = nodes[at].f;
    if (nodes[at].count) {
        for (u32 i = 0; i < depth; i++) {
            if (i) puts_(";");
            if (path[i] < 0) puts_("[unknown]"); else put(symbols[path[i]].name, symbols[path[i]].len);
        }
        puts_(" "), put_decimal(nodes[at].count), puts_("\n");
    }
    for (u32 k = nodes[at].first; k; k = nodes[k].next) { GROW(list, count, most); list[count++] = k; }
    if (count) qsort(list, count, 4, by_function);
    for (u32 i = 0; i < count; i++) print_stacks(list[i], depth);
    free(list);
}

static void folded(void) {
    struct { u32 back, node; } stack[129];
    u32 depth = 0, due = every, words = (text_high - text_low) / 4;
    u64 beyond = 0;
    int *owners = room(words, sizeof *owners);
    for (u32 i = 0; i < words; i++) owners[i] = owner(text_low + 4 * i);
    node_most = 1024, nodes = room(node_most, sizeof *nodes), node_count = 1, stack[0].node = 0;
    while (!ending && retired < budget) {
        u32 word = is_inside(pc, 4) ? u32_at(ram + (pc - base)) : 0, from = pc, op = word & 127, rd = word >> 7 & 31;
        if (!turn()) break;
        int is_return = 0;
        if ((op == 0x6F || op == 0x67) && rd == 1) {
            if (depth == 128) beyond++;
            else stack[depth + 1].node = below(stack[depth].node, owner(from)), stack[++depth].back = from + 4;
        } else is_return = op == 0x67 && rd == 0 && (word >> 15 & 31) == 1;
        u32 came = pc;
        for (int again = 0; again < 2; again++) {
            if (is_return && beyond) beyond--;
            else if (is_return) {
                u32 d = depth;
                while (d && stack[d].back != came) d--;
                if (d) depth = d - 1;
            }
            if (again) break;
            if (!ending && --due == 0) {
                due = every;
                if (on && pc >= text_low && pc < text_high) {
                    int f = owners[(pc - text_low) / 4];
                    samples++;
                    if (f >= 0) nodes[below(stack[depth].node, f)].count++;
                }
            }
            if (ending || !serve()) break;
            is_return = 1, came = pc;
        }
    }
    print_stacks(0, 0);
    flush();
    end_line();
}

int main(int argc, char **argv) {
    int only_flat = 0, count = 0;
    char **words = room(argc, sizeof *words);
    for (int i = 1; i < argc; i++) {
        u32 *option = !strcmp(argv[i], "--every") ? &every : !strcmp(argv[i], "--budget") ? &budget : !strcmp(argv[i], "--ram") ? &ram_size : NULL;
        if (!strcmp(argv[i], "--flat")) only_flat = 1;
        else if (option && i + 1 < argc) *option = strtoul(argv[++i], NULL, 10);
        else words[count++] = argv[i];
    }
    to = stdout;
    if (count >= 3 && !strcmp(words[0], "report")) {
        read_program(words[1]);
        for (int i = 2; i < count; i++) take_profile(words[i], 0);
        find_shares(), find_arcs(), find_components(), find_flow(), print_flat();
        if (!only_flat) puts_("\n"), print_graph();
        flush();
    } else if (count == 2 && !strcmp(words[0], "show")) take_profile(words[1], 1), flush();
    else if (count >= 3 && !strcmp(words[0], "sum")) {
        for (int i = 2; i < count; i++) take_profile(words[i], 0);
        write_sum(words[1]);
    } else if (count == 3 && !strcmp(words[0], "run")) read_program(words[1]), start(), run(words[2]);
    else if (count == 2 && !strcmp(words[0], "folded")) read_program(words[1]), start(), folded();
    else fail("words not understood");
}
