/* Answers questions of the harness's text protocol (README.md) by the functions of minjolf.h: each prototype is compiled and called from
 * C. `harness examples` asks it and compares the answers with the oracle's. A line that is no question ends the program. */
#include "minjolf.h"
#include <inttypes.h>
#include <stdio.h>
#include <stdlib.h>
#include <string.h>

typedef struct {
    uint64_t *at;
    size_t length;
} list;

static uint64_t number(void)
{
    uint64_t n;
    if (scanf("%" SCNu64, &n) != 1)
        exit(2);
    return n;
}

/* A list has memory of its own and of its own length; an empty one is not null either. */
static void *memory(size_t length, size_t size)
{
    void *at = malloc(length == 0 ? 1 : length * size);
    if (at == NULL)
        exit(3);
    return at;
}

static list numbers(void)
{
    list l;
    l.length = number();
    l.at = (uint64_t *)memory(l.length, sizeof(uint64_t));
    for (size_t i = 0; i < l.length; i++)
        l.at[i] = number();
    return l;
}

static void answer(minjolf_answer a)
{
    printf("%" PRIu64 " %" PRIu64 " %" PRIu64, a.number, a.place, a.value);
}

/* A lent list as it is afterwards. */
static void lent(list l)
{
    printf(" %zu", l.length);
    for (size_t i = 0; i < l.length; i++)
        printf(" %" PRIu64, l.at[i]);
    free(l.at);
}

/* Functions that have the same parameters. */
#define ON_ELEMENTS(f)          \
    static void ask_##f(void)   \
    {                           \
        uint64_t a = number();  \
        uint64_t b = number();  \
        answer(f(a, b));        \
    }

#define ON_ROW(f)                                \
    static void ask_##f(void)                    \
    {                                            \
        list row = numbers();                    \
        uint64_t residue = number();             \
        answer(f(row.at, row.length, residue));  \
        free(row.at);                            \
    }

#define ON_RECORDS(f)                                                      \
    static void ask_##f(void)                                              \
    {                                                                      \
        list records = numbers();                                          \
        list table = numbers();                                            \
        answer(f(records.at, records.length, table.at, table.length));     \
        lent(table);                                                       \
        free(records.at);                                                  \
    }

#define UNDER_GAP(f)                             \
    static void ask_##f(void)                    \
    {                                            \
        uint64_t gap = number();                 \
        list rows = numbers();                   \
        answer(f(gap, rows.at, rows.length));    \
        free(rows.at);                           \
    }

ON_ELEMENTS(field_add)
ON_ELEMENTS(field_sub)
ON_ELEMENTS(field_mul)
ON_ROW(memw_residue)
ON_ROW(memw_aligned_residue)
ON_ROW(memw_register_residue)
ON_RECORDS(generate_copy_trace)
ON_RECORDS(generate_memw_trace)
ON_RECORDS(generate_memw_aligned_trace)
ON_RECORDS(generate_memw_register_trace)
ON_RECORDS(register_lookups)
UNDER_GAP(chain_check)
UNDER_GAP(row_check)

static void ask_copy_residue(void)
{
    uint64_t gap = number();
    list row = numbers();
    uint64_t residue = number();
    answer(copy_residue(gap, row.at, row.length, residue));
    free(row.at);
}

static void ask_add_pair(void)
{
    list lists[5];
    for (int i = 0; i < 5; i++)
        lists[i] = numbers();
    list out = numbers();
    answer(add_pair(lists[0].at, lists[0].length, lists[1].at, lists[1].length, lists[2].at, lists[2].length, lists[3].at,
                    lists[3].length, lists[4].at, lists[4].length, out.at));
    lent(out);
    for (int i = 0; i < 5; i++)
        free(lists[i].at);
}

static void ask_route_accesses(void)
{
    list accesses = numbers();
    list registers = numbers();
    list aligned = numbers();
    list general = numbers();
    list counts = numbers();
    answer(route_accesses(accesses.at, accesses.length, registers.at, registers.length, aligned.at, aligned.length, general.at,
                          general.length, counts.at));
    lent(registers);
    lent(aligned);
    lent(general);
    lent(counts);
    free(accesses.at);
}

static void ask_push_reg_access(void)
{
    uint64_t address = number();
    uint32_t words[4];
    for (int i = 0; i < 4; i++)
        words[i] = (uint32_t)number();
    uint64_t timestamp = number();
    uint64_t old_timestamp = number();
    uint64_t is_read = number();
    list record = numbers();
    answer(push_reg_access(address, words[0], words[1], words[2], words[3], timestamp, old_timestamp, is_read, record.at));
    lent(record);
}

static void ask_new_register_state(void)
{
    uint64_t entry_point = number();
    uint64_t stack_top = number();
    list state = numbers();
    answer(new_register_state(entry_point, stack_top, state.at));
    lent(state);
}

static void ask_collect_copy_register_ops(void)
{
    uint64_t n[5];
    for (int i = 0; i < 5; i++)
        n[i] = number();
    list state = numbers();
    list records = numbers();
    answer(collect_copy_register_ops(n[0], n[1], n[2], n[3], n[4], state.at, records.at));
    lent(state);
    lent(records);
}

static void ask_collect_copy_ops(void)
{
    uint64_t n[6];
    for (int i = 0; i < 6; i++)
        n[i] = number();
    list cells = numbers();
    list stamps = numbers();
    list ops = numbers();
    list accesses = numbers();
    list counts = numbers();
    uint8_t *bytes = (uint8_t *)memory(cells.length, 1);
    for (size_t i = 0; i < cells.length; i++)
        bytes[i] = (uint8_t)cells.at[i];
    answer(collect_copy_ops(n[0], n[1], n[2], n[3], n[4], n[5], bytes, cells.length, stamps.at, stamps.length, ops.at, ops.length,
                            accesses.at, accesses.length, counts.at));
    for (size_t i = 0; i < cells.length; i++)
        cells.at[i] = bytes[i];
    free(bytes);
    lent(cells);
    lent(stamps);
    lent(ops);
    lent(accesses);
    lent(counts);
}

static void ask_generate_load(void)
{
    uint64_t s = number();
    uint64_t calls = number();
    list out = numbers();
    answer(generate_load(s, calls, out.at, out.length));
    lent(out);
}

static void ask_join_calls(void)
{
    list first = numbers();
    list second = numbers();
    list joined = numbers();
    answer(join_calls(first.at, first.length, second.at, second.length, joined.at, joined.length));
    lent(joined);
    free(first.at);
    free(second.at);
}

static void ask_read_back(void)
{
    uint64_t gap = number();
    list rows = numbers();
    list ops = numbers();
    list calls = numbers();
    list counts = numbers();
    answer(read_back(gap, rows.at, rows.length, ops.at, ops.length, calls.at, calls.length, counts.at));
    lent(ops);
    lent(calls);
    lent(counts);
    free(rows.at);
}

static const struct {
    const char *name;
    void (*ask)(void);
} FUNCTIONS[] = {
    {"field_add", ask_field_add},
    {"field_sub", ask_field_sub},
    {"field_mul", ask_field_mul},
    {"copy_residue", ask_copy_residue},
    {"memw_residue", ask_memw_residue},
    {"memw_aligned_residue", ask_memw_aligned_residue},
    {"memw_register_residue", ask_memw_register_residue},
    {"add_pair", ask_add_pair},
    {"generate_copy_trace", ask_generate_copy_trace},
    {"generate_memw_trace", ask_generate_memw_trace},
    {"generate_memw_aligned_trace", ask_generate_memw_aligned_trace},
    {"generate_memw_register_trace", ask_generate_memw_register_trace},
    {"route_accesses", ask_route_accesses},
    {"register_lookups", ask_register_lookups},
    {"push_reg_access", ask_push_reg_access},
    {"new_register_state", ask_new_register_state},
    {"collect_copy_register_ops", ask_collect_copy_register_ops},
    {"collect_copy_ops", ask_collect_copy_ops},
    {"generate_load", ask_generate_load},
    {"join_calls", ask_join_calls},
    {"chain_check", ask_chain_check},
    {"row_check", ask_row_check},
    {"read_back", ask_read_back},
};

static void ask(const char *name)
{
    for (size_t i = 0; i < sizeof FUNCTIONS / sizeof FUNCTIONS[0]; i++) {
        if (strcmp(name, FUNCTIONS[i].name) == 0) {
            FUNCTIONS[i].ask();
            printf("\n");
            return;
        }
    }
    exit(4);
}

int main(void)
{
    char name[64];
    while (scanf("%63s", name) == 1)
        ask(name);
    return 0;
}
