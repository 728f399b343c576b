/* The C header against the library: document 01's first table, a refusal with its node, a table that asks nothing, a division's constraints, and buffers
 * left alone. */
#include "ramstitcher.h"
#include <stdio.h>
#include <string.h>

static int failed = 0;

#define EXPECT(what)                                               \
    do {                                                           \
        if (!(what)) {                                             \
            printf("line %d: not so: %s\n", __LINE__, #what);      \
            failed = 1;                                            \
        }                                                          \
    } while (0)

#define COUNT(list) (sizeof(list) / sizeof((list)[0]))

static void lower_not(void) {
    const uint64_t table[] = {
        RAMSTITCHER_NODE_INPUT, 1, 0, 0, 0, 0,
        RAMSTITCHER_NODE_NOT, 1, 1, 0, 0, 0,
        RAMSTITCHER_NODE_BAD, 1, 2, 0, 0, 0,
    };
    const uint32_t wanted[] = {
        RAMSTITCHER_GATE_CONST_FALSE, 0, 0, 0,
        RAMSTITCHER_GATE_CONST_TRUE, 0, 0, 0,
        RAMSTITCHER_GATE_INPUT_BIT, 1, 0, 0,
        RAMSTITCHER_GATE_NOT, 2, 0, 0,
    };
    const uint64_t none[1] = {0};
    uint32_t gates[24], constraints[2] = {7, 7}, map[4];
    size_t node = 9, made = 9, held = 9;
    memset(gates, 0x5a, sizeof gates);
    memset(map, 0x5a, sizeof map);
    uint64_t r = ramstitcher_lower(table, COUNT(table), none, 0, 2, gates, 20, constraints, 0, map, 3, &node, &made, &held);
    EXPECT(r == RAMSTITCHER_DONE);
    EXPECT(node == 0 && made == 4 && held == 0);
    EXPECT(memcmp(gates, wanted, sizeof wanted) == 0);
    EXPECT(map[0] == 2 && map[1] == 3 && map[2] == 3);
    EXPECT(gates[16] == 0x5a5a5a5a && gates[20] == 0x5a5a5a5a && map[3] == 0x5a5a5a5a && constraints[0] == 7);

    /* the gates' values: the input is given */
    uint8_t values[5] = {9, 9, 1, 9, 9};
    size_t gate = 9;
    EXPECT(ramstitcher_eval_gates(gates, made * RAMSTITCHER_GATE, values, COUNT(values), &gate) == RAMSTITCHER_DONE);
    EXPECT(gate == 0 && values[0] == 0 && values[1] == 1 && values[2] == 1 && values[3] == 0 && values[4] == 9);
    values[2] = 2;
    EXPECT(ramstitcher_eval_gates(gates, made * RAMSTITCHER_GATE, values, COUNT(values), &gate) == RAMSTITCHER_INPUT && gate == 2);
    EXPECT(ramstitcher_eval_gates(gates, made * RAMSTITCHER_GATE, values, 3, &gate) == RAMSTITCHER_VALUE_ROOM && gate == 0);
    gates[13] = 3;
    EXPECT(ramstitcher_eval_gates(gates, made * RAMSTITCHER_GATE, values, COUNT(values), &gate) == RAMSTITCHER_GATE_LIST && gate == 3);

    /* too little room, then a table that is refused: nothing is written */
    memset(gates, 0x5a, sizeof gates);
    r = ramstitcher_lower(table, COUNT(table), none, 0, 2, gates, 15, constraints, 0, map, 3, &node, &made, &held);
    EXPECT(r == RAMSTITCHER_GATE_ROOM && node == 0 && made == 0 && held == 0 && gates[0] == 0x5a5a5a5a);
    r = ramstitcher_lower(table, COUNT(table), none, 0, 2, gates, 16, constraints, 0, map, 2, &node, &made, &held);
    EXPECT(r == RAMSTITCHER_BIT_ROOM && node == 0 && gates[0] == 0x5a5a5a5a);
    uint64_t bent[COUNT(table)];
    memcpy(bent, table, sizeof bent);
    bent[7] = 2;
    r = ramstitcher_lower(bent, COUNT(bent), none, 0, 2, gates, 20, constraints, 0, map, 3, &node, &made, &held);
    EXPECT(r == RAMSTITCHER_SORT && node == 2 && gates[0] == 0x5a5a5a5a);

    /* without its bad node: 14, before the room that is missing, and after a fault */
    r = ramstitcher_lower(table, 2 * RAMSTITCHER_NODE, none, 0, 2, gates, 0, constraints, 0, map, 0, &node, &made, &held);
    EXPECT(r == RAMSTITCHER_NOTHING_ASKED && node == 0 && made == 0 && held == 0 && gates[0] == 0x5a5a5a5a);
    r = ramstitcher_lower(bent, 2 * RAMSTITCHER_NODE, none, 0, 2, gates, 0, constraints, 0, map, 0, &node, &made, &held);
    EXPECT(r == RAMSTITCHER_SORT && node == 2);
}

static void words(void) {
    /* W = 2, addresses 0 and 2: a memory, a read of it, and a sum */
    const uint64_t addresses[] = {0, 2};
    const uint64_t table[] = {
        RAMSTITCHER_NODE_INPUT, 0, 0, 0, 0, 0, /* a memory */
        RAMSTITCHER_NODE_CONST, 2, 0, 0, 0, 2,
        RAMSTITCHER_NODE_READ, 2, 1, 2, 0, 0,
        RAMSTITCHER_NODE_ADD, 2, 3, 2, 0, 0,
    };
    uint64_t values[6] = {3, 1, 0, 0, 0, 77};
    size_t node = 9;
    EXPECT(ramstitcher_eval_words(table, COUNT(table), addresses, 2, 2, values, 6, &node) == RAMSTITCHER_DONE);
    EXPECT(node == 0 && values[0] == 3 && values[1] == 1 && values[2] == 2 && values[3] == 1 && values[4] == 3 && values[5] == 77);
    values[1] = 4;
    EXPECT(ramstitcher_eval_words(table, COUNT(table), addresses, 2, 2, values, 6, &node) == RAMSTITCHER_INPUT && node == 1);
    EXPECT(ramstitcher_eval_words(table, COUNT(table), addresses, 2, 2, values, 4, &node) == RAMSTITCHER_VALUE_ROOM && node == 0);
}

static void divide(void) {
    /* width 4: the ceilings are 111 gates and 16 constraints; by a divisor that is known to be zero the quotient is all ones, without a constraint */
    uint64_t table[] = {
        RAMSTITCHER_NODE_INPUT, 4, 0, 0, 0, 0,
        RAMSTITCHER_NODE_INPUT, 4, 0, 0, 0, 0,
        RAMSTITCHER_NODE_DIVU, 4, 1, 2, 0, 0,
        RAMSTITCHER_NODE_EQ, 1, 3, 1, 0, 0,
        RAMSTITCHER_NODE_BAD, 1, 4, 0, 0, 0,
    };
    const uint64_t none[1] = {0};
    uint32_t gates[4 * 132] = {0}, constraints[32] = {0}, map[14] = {0};
    size_t node = 9, made = 9, held = 9;
    uint64_t room_gates = 9, room_constraints = 9, room_map = 9;
    EXPECT(ramstitcher_room(table, COUNT(table), none, 0, 64, &node, &room_gates, &room_constraints, &room_map) == RAMSTITCHER_DONE);
    EXPECT(node == 0 && room_gates == 132 && room_constraints == 16 && room_map == 14);
    EXPECT(ramstitcher_lower(table, COUNT(table), none, 0, 64, gates, COUNT(gates), constraints, 32, map, 14, &node, &made, &held) == RAMSTITCHER_DONE);
    EXPECT(node == 0 && made <= 132 && held == 16);
    EXPECT(ramstitcher_lower(table, COUNT(table), none, 0, 64, gates, COUNT(gates), constraints, 31, map, 14, &node, &made, &held) == RAMSTITCHER_CONSTRAINT_ROOM);
    table[6] = RAMSTITCHER_NODE_CONST; /* the divisor is the const 0 */
    EXPECT(ramstitcher_lower(table, COUNT(table), none, 0, 64, gates, COUNT(gates), constraints, 32, map, 14, &node, &made, &held) == RAMSTITCHER_DONE);
    EXPECT(node == 0 && made == 9 && held == 0);
    for (size_t i = 8; i < 12; i++) EXPECT(map[i] == 1);
}

int main(void) {
    lower_not();
    words();
    divide();
    printf("bindings, C: %s\n", failed ? "differ" : "ok");
    return failed;
}
