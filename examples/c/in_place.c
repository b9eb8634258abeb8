/* in_place MODULE FUNCTION ARGUMENT..: runs a function of a module, imported ones counted, in place: over the bytes of the bodies and their side tables.
   It prints the results, each on a line. It has integers, locals, branches, calls and one page of memory, all zero, and leaves out imports, data, the
   start function and all other opcodes. It tests no types and no heights, since the module is valid, but only what validation doesn't say: addresses, how
   deep calls are, and opcodes that it doesn't know. How long a function runs isn't limited. */
#include <ruthvelka.h>
#include <string.h>

#include "files.h"

#define FEATURES (RUTHVELKA_STANDARD | RUTHVELKA_CRATE_LIMITS)
#define MOST_VALUES 1000 /* as the gate has it: a function type has at most 1,000 parameters and 1,000 results */
#define MOST_CALLS 1000
#define STACK 1000000
#define MEMORY 65536

enum opcode {
    UNREACHABLE, NOP, BLOCK, LOOP, IF, ELSE, END = 0x0b, BR, BR_IF, BR_TABLE, RETURN, CALL, DROP = 0x1a, LOCAL_GET = 0x20, LOCAL_SET, LOCAL_TEE,
    I32_LOAD = 0x28, I64_LOAD, I32_STORE = 0x36, I64_STORE, I32_CONST = 0x41, I64_CONST, I32_EQZ = 0x45, I32_EQ, I32_NE, I32_LT_S, I32_LT_U,
    I64_EQZ = 0x50, I64_EQ, I64_NE, I64_LT_S, I64_LT_U, I32_ADD = 0x6a, I32_SUB, I32_MUL, I64_ADD = 0x7c, I64_SUB, I64_MUL, I64_EXTEND_I32_U = 0xad
};

/* A module: the tables of its bodies; and the type of each function, with how many values it takes and gives. */
struct module {
    const uint8_t *bytes;
    size_t functions, imported;
    uint32_t *ids;
    struct ruthvelka_signature *signatures;
    struct ruthvelka_body_table *tables;
    struct ruthvelka_side_entry *entries;
};

/* A call: where its instruction stands and what is read next, the entry of the next branch, its locals, and the place behind its top operand. */
struct call {
    const struct module *module;
    const struct ruthvelka_body_table *table;
    uint32_t instruction, at;
    const struct ruthvelka_side_entry *next;
    uint64_t *locals, *top;
    int depth;
};

static uint64_t stack[STACK]; /* the locals and operands of all calls; the upper half of an i32 is 0 */
static uint8_t memory[MEMORY];

static uint64_t *run(const struct module *module, uint32_t function, uint64_t *top, int depth);

static void stop(const char *why, uint32_t number) {
    fprintf(stderr, "in_place: %s %u\n", why, number);
    exit(1);
}

/* Reads a number in LEB128, with a sign or without. */
static uint64_t read_number(struct call *it, int has_sign) {
    uint64_t number = 0;
    int bits = 0;
    uint8_t byte;
    do {
        byte = it->module->bytes[it->at++];
        number |= (uint64_t)(byte & 0x7f) << bits;
        bits += 7;
    } while (byte & 0x80);
    return has_sign && bits < 64 && byte & 0x40 ? number | UINT64_MAX << bits : number;
}

/* Passes over the type of a block. That of a reference says in a second number what it is to. */
static void pass_block_type(struct call *it) {
    const uint8_t first = it->module->bytes[it->at];
    read_number(it, 1);
    if (first == RUTHVELKA_REFERENCE || first == RUTHVELKA_NULL_OR_REFERENCE) read_number(it, 1);
}

/* Goes on where this entry says: the operands that it keeps move over those that it drops. */
static void branch(struct call *it, const struct ruthvelka_side_entry *entry) {
    memmove(it->top - entry->kept - entry->dropped, it->top - entry->kept, entry->kept * sizeof *it->top);
    it->top -= entry->dropped;
    it->at = entry->target;
    it->next = it->module->entries + it->table->start + entry->next;
}

/* Takes the branch of the next entry, or passes over it. */
static void branch_if(struct call *it, int is_taken) {
    if (is_taken) branch(it, it->next);
    else it->next++;
}

static void branch_by_table(struct call *it) {
    const uint64_t others = read_number(it, 0), index = *--it->top;
    branch(it, it->next + (index < others ? index : others));
}

/* Takes the address on top. Gives the place in memory of so many bytes there, behind the offset that the instruction has. */
static uint8_t *take_address(struct call *it, uint64_t width) {
    const uint64_t alignment = read_number(it, 0), index = alignment & 0x40 ? read_number(it, 0) : 0;
    const uint64_t offset = read_number(it, 0), address = *--it->top;
    if (index || address > MEMORY || offset > MEMORY || address + offset + width > MEMORY)
        stop("an address is outside of the memory, at", it->instruction);
    return memory + address + offset;
}

/* Puts a result in the place of so many operands. */
static void give(struct call *it, int taken, uint64_t result) {
    it->top -= taken;
    *it->top++ = result;
}

static void load(struct call *it, size_t width) {
    uint64_t value = 0;
    memcpy(&value, take_address(it, width), width);
    give(it, 0, value);
}

static void store(struct call *it, size_t width) {
    const uint64_t value = *--it->top;
    memcpy(take_address(it, width), &value, width);
}

/* Runs a numeric operator on the operands up to the top. */
static void compute(struct call *it, uint8_t opcode) {
    const uint64_t *const top = it->top;
    switch (opcode) {
    case I32_EQZ: case I64_EQZ: give(it, 1, !top[-1]); break;
    case I64_EXTEND_I32_U: break;
    case I32_EQ: case I64_EQ: give(it, 2, top[-2] == top[-1]); break;
    case I32_NE: case I64_NE: give(it, 2, top[-2] != top[-1]); break;
    case I32_LT_S: give(it, 2, (int32_t)top[-2] < (int32_t)top[-1]); break;
    case I64_LT_S: give(it, 2, (int64_t)top[-2] < (int64_t)top[-1]); break;
    case I32_LT_U: case I64_LT_U: give(it, 2, top[-2] < top[-1]); break;
    case I32_ADD: give(it, 2, (uint32_t)(top[-2] + top[-1])); break;
    case I32_SUB: give(it, 2, (uint32_t)(top[-2] - top[-1])); break;
    case I32_MUL: give(it, 2, (uint32_t)(top[-2] * top[-1])); break;
    case I64_ADD: give(it, 2, top[-2] + top[-1]); break;
    case I64_SUB: give(it, 2, top[-2] - top[-1]); break;
    case I64_MUL: give(it, 2, top[-2] * top[-1]); break;
    default: stop("an unknown opcode, at", it->instruction);
    }
}

static void step(struct call *it) {
    it->instruction = it->at;
    const uint8_t opcode = it->module->bytes[it->at++];
    switch (opcode) {
    case UNREACHABLE: stop("unreachable, at", it->instruction); break;
    case NOP: case END: break;
    case BLOCK: case LOOP: pass_block_type(it); break;
    case IF: pass_block_type(it), branch_if(it, !*--it->top); break;
    case ELSE: case BR: branch(it, it->next); break;
    case BR_IF: read_number(it, 0), branch_if(it, *--it->top != 0); break;
    case BR_TABLE: branch_by_table(it); break;
    case RETURN: it->at = it->table->end; break;
    case CALL: it->top = run(it->module, (uint32_t)read_number(it, 0), it->top, it->depth + 1); break;
    case DROP: it->top--; break;
    case LOCAL_GET: give(it, 0, it->locals[read_number(it, 0)]); break;
    case LOCAL_SET: it->locals[read_number(it, 0)] = *--it->top; break;
    case LOCAL_TEE: it->locals[read_number(it, 0)] = it->top[-1]; break;
    case I32_LOAD: load(it, 4); break;
    case I64_LOAD: load(it, 8); break;
    case I32_STORE: store(it, 4); break;
    case I64_STORE: store(it, 8); break;
    case I32_CONST: give(it, 0, (uint32_t)read_number(it, 1)); break;
    case I64_CONST: give(it, 0, read_number(it, 1)); break;
    default: compute(it, opcode);
    }
}

/* Runs a function on the arguments up to `top`. Its results take their place, and it gives the place behind them. */
static uint64_t *run(const struct module *module, uint32_t function, uint64_t *top, int depth) {
    const struct ruthvelka_signature *signature = &module->signatures[function];
    if (function < module->imported) stop("a call of the imported function", function);
    const struct ruthvelka_body_table *table = &module->tables[function - module->imported];
    uint64_t *const locals = top - signature->params;
    if (depth == MOST_CALLS || (uint64_t)(stack + STACK - locals) < (uint64_t)table->locals + table->operands)
        stop("too many calls at once, the last one of function", function);
    struct call it = {module, table, 0, table->first, module->entries + table->start, locals, locals + table->locals, depth};
    memset(top, 0, (size_t)(it.top - top) * sizeof *top);
    while (it.at != table->end) step(&it);
    memmove(locals, it.top - signature->results, signature->results * sizeof *top);
    return locals + signature->results;
}

/* How many values each function takes and gives, by the types of a validator. */
static int read_signatures(struct ruthvelka_types *types, size_t functions, struct module *to) {
    to->functions = functions;
    to->ids = calloc(functions + 1, sizeof *to->ids);
    to->signatures = calloc(functions + 1, sizeof *to->signatures);
    if (!to->ids || !to->signatures) exit(2);
    if (ruthvelka_types_ids(types, NULL, NULL, 0, to->ids, functions) != RUTHVELKA_STATUS_DONE) return 0;
    for (size_t i = 0; i < functions; i++) {
        to->signatures[i].size = sizeof *to->signatures;
        if (ruthvelka_types_signature(types, to->ids[i], &to->signatures[i], NULL, 0, NULL, 0) != RUTHVELKA_STATUS_DONE) return 0;
    }
    return 1;
}

/* The tables of all bodies, by one call with room for as many as so many bytes may have. */
static int read_tables(const uint8_t *bytes, size_t length, struct module *to) {
    struct ruthvelka_side_tables totals = {.size = sizeof totals, .table_size = sizeof *to->tables, .entry_size = sizeof *to->entries};
    to->bytes = bytes;
    to->tables = calloc(length, sizeof *to->tables);
    to->entries = calloc(length, sizeof *to->entries);
    if (!to->tables || !to->entries) exit(2);
    if (ruthvelka_side_tables(bytes, length, FEATURES, NULL, 0, NULL, &totals, to->tables, length, to->entries, length) != RUTHVELKA_STATUS_DONE)
        return 0;
    to->imported = to->functions - (size_t)totals.tables;
    return 1;
}

/* Runs a function on numbers in words, and prints its results, as numbers with a sign. */
static void run_on_words(struct ruthvelka_types *types, const struct module *module, uint32_t function, char **words, size_t count) {
    static struct ruthvelka_value_type params[MOST_VALUES], results[MOST_VALUES];
    params->size = results->size = sizeof *params;
    if (function >= module->functions || module->signatures[function].params != count
        || ruthvelka_types_signature(types, module->ids[function], NULL, params, MOST_VALUES, results, MOST_VALUES) != RUTHVELKA_STATUS_DONE)
        stop("there are not so many arguments of function", function);
    for (size_t i = 0; i < count; i++) {
        const uint64_t value = (uint64_t)strtoll(words[i], NULL, 10);
        stack[i] = params[i].kind == RUTHVELKA_I32 ? (uint32_t)value : value;
    }
    const uint64_t *const top = run(module, function, stack + count, 0);
    for (size_t i = 0; stack + i < top; i++)
        printf("%lld\n", results[i].kind == RUTHVELKA_I32 ? (long long)(int32_t)stack[i] : (long long)stack[i]);
}

int main(int count, char **words) {
    struct ruthvelka_validator validator = RUTHVELKA_NOTHING;
    struct ruthvelka_types types = RUTHVELKA_NOTHING;
    struct ruthvelka_outcome outcome = {.size = sizeof outcome};
    struct module module = {NULL, 0, 0, NULL, NULL, NULL, NULL};
    size_t length = 0;
    uint8_t *bytes = count >= 3 ? read_file(words[1], &length) : NULL;
    if (!bytes) fprintf(stderr, count >= 3 ? "in_place: cannot read %s\n" : "usage: in_place MODULE FUNCTION ARGUMENT..\n", words[1]);
    if (!bytes || ruthvelka_validator_new(&validator, FEATURES, NULL) != RUTHVELKA_STATUS_DONE) return 2;
    const int is_read = ruthvelka_validator_validate(&validator, bytes, length, NULL, 0, &outcome, &types) == RUTHVELKA_STATUS_VALID
        && read_signatures(&types, outcome.functions, &module) && read_tables(bytes, length, &module);
    if (is_read) run_on_words(&types, &module, (uint32_t)strtoul(words[2], NULL, 10), words + 3, (size_t)count - 3);
    else fprintf(stderr, "in_place: not valid\n");
    ruthvelka_types_release(&types), ruthvelka_validator_free(&validator);
    free(module.ids), free(module.signatures), free(module.tables), free(module.entries), free(bytes);
    return !is_read;
}
