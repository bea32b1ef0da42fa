// A plugin of QEMU that counts what a program of RV32IM executes, and on which call stacks: a truth from outside, which
// shares nothing with rvgprof but the public definitions of docs/MACHINE.md. tools/checks/truth builds and reads it.
//
//     cc -O2 -shared -fPIC -o truth.so truth.c
//     qemu-riscv32 -plugin ./truth.so,functions=FILE,out=FILE PROGRAM
//
// FILE of functions has a line `LOW HIGH ID` for each function, by ascending address, with ids from 1 on; functions of one
// id count as one. `hook ADDRESS` names a hook, whose function is one `ret`, the first one _mcount; `setjmp ID` a function that
// returns again. What is printed:
//
//     executed ADDRESS N         how often an instruction was executed, but for those of hooks
//     call SITE CALLEE N         a jump that links, x1 or x5, and where it went
//     arc RETURN SELF N          what _mcount sees at its first hook: its caller's return address, and its own
//     function RULE ID SELF INCLUSIVE
//     edge RULE ID ID SELF INCLUSIVE
//     root RULE ID INCLUSIVE     of the stacks that begin with a function
//     total RULE N
//     lost RULE N                calls that found no room
//
// INCLUSIVE counts each instruction once for each different function and for each different edge on its stack. RULE says
// what a stack is:
//
// folded  as `rvgprof folded --every 1` defines it, sample by sample: x1 alone makes calls and returns, at most 128 are kept,
//         a return to where no call waits changes nothing, and there is a sample of each hook in place of one of the
//         instruction behind it, and none of the first instruction.
// frames  as the sources have it, instruction by instruction: x5 too makes calls and returns, a tail call keeps its caller, a
//         return to where a function returned before (`setjmp`) goes back to that one's caller, and there is no limit.
#include <inttypes.h>
#include <stdbool.h>
#include <stdint.h>
#include <stdio.h>
#include <stdlib.h>
#include <string.h>

// Of qemu-plugin.h, version 1, which Debian doesn't package.
typedef uint64_t plugin_id;
struct qemu_plugin_tb;
struct qemu_plugin_insn;
typedef void (*translated)(plugin_id, struct qemu_plugin_tb *);
typedef void (*executing)(unsigned, void *);
typedef void (*ending)(plugin_id, void *);
void qemu_plugin_register_vcpu_tb_trans_cb(plugin_id, translated);
void qemu_plugin_register_vcpu_insn_exec_cb(struct qemu_plugin_insn *, executing, int flags, void *);
void qemu_plugin_register_atexit_cb(plugin_id, ending, void *);
size_t qemu_plugin_tb_n_insns(const struct qemu_plugin_tb *);
struct qemu_plugin_insn *qemu_plugin_tb_get_insn(const struct qemu_plugin_tb *, size_t);
const void *qemu_plugin_insn_data(const struct qemu_plugin_insn *);
uint64_t qemu_plugin_insn_vaddr(const struct qemu_plugin_insn *);
int qemu_plugin_version = 1;

enum { FOLDED, FRAMES, RULES, MOST = 128, NO_CALL = 1 };

static void *grown(void *items, size_t count, size_t size) {
    if (count & (count - 1))
        return items;
    items = realloc(items, (count ? 2 * count : 1) * size);
    if (!items) {
        fputs("truth: out of memory\n", stderr);
        exit(99);
    }
    return items;
}

#define ADD(items, count) ((items) = grown((items), (count), sizeof *(items)), &(items)[(count)++])

// The numbers of pairs, from 0 on in the order in which they come.
struct pair { uint32_t first, second; };
struct pairs { struct pair *items; uint32_t count, *slots, size; };

static uint32_t *slot_of(struct pairs *of, struct pair pair) {
    uint64_t mixed = (pair.first + ((uint64_t)pair.second << 32)) * 0x9e3779b97f4a7c15u;
    uint32_t at = (uint32_t)(mixed >> 32) & (of->size - 1);
    while (of->slots[at] && memcmp(&of->items[of->slots[at] - 1], &pair, sizeof pair))
        at = (at + 1) & (of->size - 1);
    return &of->slots[at];
}

static uint32_t number_of(struct pairs *of, uint32_t first, uint32_t second, bool *is_new) {
    if (2 * of->count >= of->size) {
        of->size = of->size ? 2 * of->size : 1024;
        free(of->slots);
        of->slots = calloc(of->size, sizeof *of->slots);
        for (uint32_t i = 0; i < of->count; i++)
            *slot_of(of, of->items[i]) = i + 1;
    }
    struct pair pair = {first, second};
    uint32_t *slot = slot_of(of, pair);
    *is_new = !*slot;
    if (*is_new) {
        *slot = of->count + 1;
        *ADD(of->items, of->count) = pair;
    }
    return *slot - 1;
}

struct counts { struct pairs pairs; uint64_t *often; uint32_t count; };

static void count(struct counts *of, uint32_t first, uint32_t second) {
    bool is_new;
    uint32_t number = number_of(&of->pairs, first, second, &is_new);
    if (is_new)
        *ADD(of->often, of->count) = 0;
    of->often[number]++;
}

struct function { uint32_t low, high, id; };
struct instruction { uint32_t address, word, id; const struct function *function; uint64_t executed; bool is_hook; };

static struct function *functions;
static uint32_t function_count, *hooks, hook_count, highest_id;
static struct instruction **known, **others;
static uint32_t other_count;
static struct counts calls, arcs;
static const char *out = "/dev/stdout";

static const struct function *function_at(uint32_t address) {
    uint32_t low = 0, high = function_count;
    while (low < high) {
        uint32_t middle = low + (high - low) / 2;
        *(functions[middle].low <= address ? &low : &high) = functions[middle].low <= address ? middle + 1 : middle;
    }
    return low && address < functions[low - 1].high ? &functions[low - 1] : NULL;
}

// The stacks that there were, as a tree: each node is a function below its caller's node. Node 0 has no function.
struct node { uint32_t parent, id, child, sibling; uint64_t here, below; };
// A call that waits for its return; of a tail call it has no address to return to.
struct call { uint32_t back, node; };
struct stacks {
    struct pairs children;
    struct node *nodes;
    uint32_t node_count;
    struct call *calls;
    uint32_t depth, without_room;
    uint64_t lost;
    uint32_t leaf, leaf_id, leaf_parent;
    uint64_t total;
    bool is_skipped;
};
static struct stacks of_rule[RULES];
static const char *rule_names[] = {"folded", "frames"};

static uint32_t child_of(struct stacks *in, uint32_t parent, uint32_t id) {
    bool is_new;
    uint32_t number = number_of(&in->children, parent, id, &is_new) + 1;
    if (is_new) {
        *ADD(in->nodes, in->node_count) = (struct node){parent, id, 0, in->nodes[parent].child, 0, 0};
        in->nodes[parent].child = number;
    }
    return number;
}

static uint32_t top_of(const struct stacks *in) {
    return in->depth ? in->calls[in->depth - 1].node : 0;
}

static void push(struct stacks *in, uint32_t back, uint32_t caller) {
    struct call call = {back, child_of(in, top_of(in), caller)};
    *ADD(in->calls, in->depth) = call;
}

// Takes off the last call that waits for this return, and all that came behind it.
static bool pop_to(struct stacks *in, uint32_t back) {
    for (uint32_t depth = in->depth; depth; depth--)
        if (in->calls[depth - 1].back == back) {
            in->depth = depth - 1;
            return true;
        }
    return false;
}

static void count_sample(struct stacks *in, uint32_t id) {
    uint32_t parent = top_of(in);
    if (!in->leaf || in->leaf_id != id || in->leaf_parent != parent) {
        in->leaf = child_of(in, parent, id);
        in->leaf_id = id, in->leaf_parent = parent;
    }
    in->nodes[in->leaf].here++;
    in->total++;
}

enum { NEITHER, CALL, CALL_X5, RETURN, RETURN_X5, JUMP };

static int kind_of(uint32_t word) {
    uint32_t opcode = word & 0x7f, rd = word >> 7 & 31, rs1 = word >> 15 & 31;
    bool is_jal = opcode == 0x6f, is_jalr = (word & 0x707f) == 0x67;
    if (!is_jal && !is_jalr)
        return NEITHER;
    if (rd == 1 || rd == 5)
        return rd == 1 ? CALL : CALL_X5;
    if (is_jalr && rd == 0 && (rs1 == 1 || rs1 == 5))
        return rs1 == 1 ? RETURN : RETURN_X5;
    return rd == 0 ? JUMP : NEITHER;
}

static void go_folded(const struct instruction *from, const struct instruction *to, int kind) {
    struct stacks *in = &of_rule[FOLDED];
    if (kind == CALL && in->depth == MOST)
        in->without_room++, in->lost++;
    else if (kind == CALL)
        push(in, from->address + 4, from->id);
    else if (kind == RETURN && in->without_room)
        in->without_room--;
    else if (kind == RETURN)
        pop_to(in, to->address);
}

// Where functions returned to, and how deep the stack then was: of the addresses behind calls of `setjmp`, which returns again.
static uint32_t setjmp_id;
struct kept { uint32_t back, depth; };
static struct kept *kept;
static uint32_t kept_count;

static void keep(uint32_t back, const struct stacks *in) {
    for (uint32_t i = 0; i < kept_count; i++)
        if (kept[i].back == back) {
            kept[i].depth = in->depth;
            return;
        }
    *ADD(kept, kept_count) = (struct kept){back, in->depth};
}

static void go_back(const struct instruction *from, const struct instruction *to) {
    struct stacks *in = &of_rule[FRAMES];
    if (pop_to(in, to->address)) {
        if (from->id == setjmp_id)
            keep(to->address, in);
        return;
    }
    for (uint32_t i = 0; i < kept_count; i++)
        if (kept[i].back == to->address && kept[i].depth <= in->depth)
            in->depth = kept[i].depth;
}

// A function that is among the tail calls since the last call stands there once, so that a loop of them has an end.
static void go_on(const struct instruction *from, const struct instruction *to) {
    struct stacks *in = &of_rule[FRAMES];
    if (!to->function || to->id == from->id || to->address != to->function->low)
        return;
    for (uint32_t depth = in->depth; depth && in->calls[depth - 1].back == NO_CALL; depth--)
        if (in->nodes[in->calls[depth - 1].node].id == to->id) {
            in->depth = depth - 1;
            return;
        }
    push(in, NO_CALL, from->id);
}

static void go_frames(const struct instruction *from, const struct instruction *to, int kind) {
    if (kind == CALL || kind == CALL_X5)
        push(&of_rule[FRAMES], from->address + 4, from->id);
    else if (kind == RETURN || kind == RETURN_X5)
        go_back(from, to);
    else if (to->address != from->address + 4)
        go_on(from, to);
}

// The return address of the function that calls _mcount, whose own call is the last.
static uint32_t return_address(void) {
    const struct stacks *in = &of_rule[FRAMES];
    for (uint32_t depth = in->depth ? in->depth - 1 : 0; depth; depth--)
        if (in->calls[depth - 1].back != NO_CALL)
            return in->calls[depth - 1].back;
    return 0;
}

static void execute(unsigned hart, void *data) {
    static struct instruction *before;
    struct instruction *now = data;
    (void)hart;
    if (before) {
        int kind = kind_of(before->word);
        go_folded(before, now, kind);
        go_frames(before, now, kind);
        if (kind == CALL || kind == CALL_X5)
            count(&calls, before->address, now->address);
        if (kind == CALL && hook_count && now->address == hooks[0])
            count(&arcs, return_address(), before->address + 4);
    }
    now->executed += !now->is_hook;
    if (!now->is_hook)
        count_sample(&of_rule[FRAMES], now->id);
    struct stacks *in = &of_rule[FOLDED];
    if (!in->is_skipped && now->id)
        count_sample(in, now->id);
    in->is_skipped = now->is_hook;
    before = now;
}

static struct instruction *instruction_at(uint32_t address, uint32_t word) {
    const struct function *function = function_at(address);
    uint32_t text = function ? (address - functions[0].low) / 4 : 0;
    struct instruction *found = function ? known[text] : NULL;
    if (found && found->word == word)
        return found;
    found = calloc(1, sizeof *found);
    *found = (struct instruction){address, word, function ? function->id : 0, function, 0, false};
    for (uint32_t i = 0; i < hook_count; i++)
        found->is_hook |= hooks[i] == address;
    if (function)
        known[text] = found;
    *ADD(others, other_count) = found;
    return found;
}

static void translate(plugin_id id, struct qemu_plugin_tb *block) {
    (void)id;
    for (size_t i = 0; i < qemu_plugin_tb_n_insns(block); i++) {
        struct qemu_plugin_insn *insn = qemu_plugin_tb_get_insn(block, i);
        uint32_t word;
        memcpy(&word, qemu_plugin_insn_data(insn), sizeof word);
        void *data = instruction_at((uint32_t)qemu_plugin_insn_vaddr(insn), word);
        qemu_plugin_register_vcpu_insn_exec_cb(insn, execute, 0, data);
    }
}

// How often something is on the path to a node, what it has itself, and what it has with all below it.
struct sum { uint32_t open; uint64_t self, inclusive; };

static void enter(struct sum *sum, const struct node *node, int step) {
    if (step > 0 && sum->open++ == 0)
        sum->inclusive += node->below;
    if (step > 0)
        sum->self += node->here;
    else
        sum->open--;
}

static void print_rule(FILE *file, struct stacks *in, const char *name) {
    struct sum *by_id = calloc(highest_id + 1, sizeof *by_id), *by_edge = calloc(in->node_count + 1, sizeof *by_edge);
    struct pairs edges = {0};
    for (uint32_t i = in->node_count; i-- > 1;) {
        in->nodes[i].below += in->nodes[i].here;
        in->nodes[in->nodes[i].parent].below += in->nodes[i].below;
    }
    uint32_t at = in->nodes[0].child;
    for (int step = 1; at;) {
        const struct node *node = &in->nodes[at];
        bool is_new;
        enter(&by_id[node->id], node, step);
        if (node->parent)
            enter(&by_edge[number_of(&edges, in->nodes[node->parent].id, node->id, &is_new)], node, step);
        uint32_t next = step > 0 && node->child ? node->child : 0;
        if (step > 0 && !next) {
            step = -1;
            continue;
        }
        step = next || node->sibling ? 1 : -1;
        at = next ? next : node->sibling ? node->sibling : node->parent;
    }
    for (uint32_t id = 0; id <= highest_id; id++)
        if (by_id[id].inclusive)
            fprintf(file, "function %s %u %" PRIu64 " %" PRIu64 "\n", name, id, by_id[id].self, by_id[id].inclusive);
    for (uint32_t i = 0; i < edges.count; i++)
        fprintf(file, "edge %s %u %u %" PRIu64 " %" PRIu64 "\n", name, edges.items[i].first, edges.items[i].second, by_edge[i].self, by_edge[i].inclusive);
    for (uint32_t i = in->nodes[0].child; i; i = in->nodes[i].sibling)
        fprintf(file, "root %s %u %" PRIu64 "\n", name, in->nodes[i].id, in->nodes[i].below);
    fprintf(file, "total %s %" PRIu64 "\nlost %s %" PRIu64 "\n", name, in->total, name, in->lost);
}

static void print_counts(FILE *file, const struct counts *of, const char *name) {
    for (uint32_t i = 0; i < of->count; i++)
        fprintf(file, "%s %08x %08x %" PRIu64 "\n", name, of->pairs.items[i].first, of->pairs.items[i].second, of->often[i]);
}

static void print(plugin_id id, void *data) {
    (void)id, (void)data;
    FILE *file = fopen(out, "w");
    if (!file)
        return;
    for (uint32_t i = 0; i < other_count; i++)
        if (others[i]->executed)
            fprintf(file, "executed %08x %" PRIu64 "\n", others[i]->address, others[i]->executed);
    print_counts(file, &calls, "call");
    print_counts(file, &arcs, "arc");
    for (int rule = 0; rule < RULES; rule++)
        print_rule(file, &of_rule[rule], rule_names[rule]);
    fclose(file);
}

static bool read_functions(const char *name) {
    FILE *file = fopen(name, "r");
    char line[256];
    if (!file)
        return false;
    while (fgets(line, sizeof line, file)) {
        struct function f;
        uint32_t address;
        if (sscanf(line, "hook %x", &address) == 1)
            *ADD(hooks, hook_count) = address;
        else if (sscanf(line, "setjmp %u", &address) == 1)
            setjmp_id = address;
        else if (sscanf(line, "%x %x %u", &f.low, &f.high, &f.id) == 3)
            *ADD(functions, function_count) = f, highest_id = f.id > highest_id ? f.id : highest_id;
    }
    fclose(file);
    if (function_count)
        known = calloc((functions[function_count - 1].high - functions[0].low) / 4 + 1, sizeof *known);
    return function_count && known;
}

int qemu_plugin_install(plugin_id id, const void *info, int argc, char **argv) {
    bool is_read = false;
    (void)info;
    for (int i = 0; i < argc; i++) {
        if (!strncmp(argv[i], "out=", 4))
            out = strdup(argv[i] + 4);
        if (!strncmp(argv[i], "functions=", 10))
            is_read = read_functions(argv[i] + 10);
    }
    for (int rule = 0; rule < RULES; rule++)
        *ADD(of_rule[rule].nodes, of_rule[rule].node_count) = (struct node){0};
    of_rule[FOLDED].is_skipped = true;
    qemu_plugin_register_vcpu_tb_trans_cb(id, translate);
    qemu_plugin_register_atexit_cb(id, print, NULL);
    return is_read ? 0 : -1;
}
