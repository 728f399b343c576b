/* Ramstitcher's entry points, for C. Link target/staticlib/libffi.a (x86-64 Linux).
 *
 * Each function returns a number of the refusal sheet, 0 for none, and stores through its last pointers what stands beside it.
 * What the proofs ask of a caller, and cannot test:
 * - every pointer is not null and is aligned for its type, also where the length beside it is 0;
 * - a length counts elements, and that many can be read (const) or read and written (not const);
 * - all of them are initialised, those that are only written as well, and so is what the last pointers point to;
 * - nothing that is written overlaps anything else that is passed, and no other thread uses it during the call;
 * - the calling thread has RAMSTITCHER_STACK bytes of stack left.
 * Any numbers may stand in the buffers. */
#ifndef RAMSTITCHER_H
#define RAMSTITCHER_H

#include <stddef.h>
#include <stdint.h>

#ifdef __cplusplus
extern "C" {
#endif

/* Numbers a node of a table has (kind, width, a, b, c, imm), u32 a gate (kind, x, y, z), and u32 a constraint (gate, value). */
#define RAMSTITCHER_NODE 6
#define RAMSTITCHER_GATE 4
#define RAMSTITCHER_CONSTRAINT 2

/* What the map holds for the bits of a node that was not reached. */
#define RAMSTITCHER_UNREACHED UINT32_C(4294967295)

/* Bytes of stack that are enough for any call, whatever the table: 512 KiB. The lowering visits operands by recursion, up to 512 nodes deep, and the process
 * dies where the stack ends before. A main thread has more, and so has a thread of glibc where nothing else is asked for; those of other C libraries may
 * have less (musl's: 128 KiB). bindings/stack.rs runs the deepest tables on threads of this size. */
#define RAMSTITCHER_STACK 524288

/* The kinds of nodes. DIV, NEXT and COMMENT are named and not lowered: refusal 4. */
enum ramstitcher_node_kind {
    RAMSTITCHER_NODE_CONST = 1,
    RAMSTITCHER_NODE_INPUT = 2,
    RAMSTITCHER_NODE_STATE = 3,
    RAMSTITCHER_NODE_NOT = 4,
    RAMSTITCHER_NODE_BAD = 5,
    RAMSTITCHER_NODE_AND = 6,
    RAMSTITCHER_NODE_EXT = 7,
    RAMSTITCHER_NODE_EQ = 8,
    RAMSTITCHER_NODE_ADD = 9,
    RAMSTITCHER_NODE_ITE = 10,
    RAMSTITCHER_NODE_SUB = 11,
    RAMSTITCHER_NODE_ULT = 12,
    RAMSTITCHER_NODE_MUL = 13,
    RAMSTITCHER_NODE_DIVU = 14,
    RAMSTITCHER_NODE_REM = 15,
    RAMSTITCHER_NODE_READ = 16,
    RAMSTITCHER_NODE_WRITE = 17,
    RAMSTITCHER_NODE_OR = 18,
    RAMSTITCHER_NODE_DIV = 19,
    RAMSTITCHER_NODE_SLL = 20,
    RAMSTITCHER_NODE_SRL = 21,
    RAMSTITCHER_NODE_NEXT = 22,
    RAMSTITCHER_NODE_COMMENT = 23,
    RAMSTITCHER_NODE_SEXT = 24
};

/* The kinds of gates. INPUT_BIT, QUOTIENT and REMAINDER are free: x is a node, y a bit of it, and the value is given from outside. */
enum ramstitcher_gate_kind {
    RAMSTITCHER_GATE_CONST_FALSE = 0,
    RAMSTITCHER_GATE_CONST_TRUE = 1,
    RAMSTITCHER_GATE_INPUT_BIT = 2,
    RAMSTITCHER_GATE_NOT = 3,
    RAMSTITCHER_GATE_AND = 4,
    RAMSTITCHER_GATE_NAND = 5,
    RAMSTITCHER_GATE_OR = 6,
    RAMSTITCHER_GATE_MATRIARCH1 = 7, /* not x, and y */
    RAMSTITCHER_GATE_CARRY_HALF = 8,
    RAMSTITCHER_GATE_RESULT_HALF = 9,
    RAMSTITCHER_GATE_CARRY_FULL = 10,
    RAMSTITCHER_GATE_RESULT_FULL = 11,
    RAMSTITCHER_GATE_QUOTIENT = 12,
    RAMSTITCHER_GATE_REMAINDER = 13
};

/* The refusal sheet. */
enum ramstitcher_refusal {
    RAMSTITCHER_DONE = 0,
    RAMSTITCHER_SIZE = 1,
    RAMSTITCHER_ADDRESS = 2,
    RAMSTITCHER_KIND = 3,
    RAMSTITCHER_NOT_LOWERED = 4,
    RAMSTITCHER_OPERAND = 5,
    RAMSTITCHER_SORT = 6,
    RAMSTITCHER_GATE_ROOM = 7,
    RAMSTITCHER_BIT_ROOM = 8,
    RAMSTITCHER_CONSTRAINT_ROOM = 9,
    /* 10 is not used */
    RAMSTITCHER_GATE_LIST = 11,
    RAMSTITCHER_VALUE_ROOM = 12,
    RAMSTITCHER_INPUT = 13,
    RAMSTITCHER_NOTHING_ASKED = 14
};

/* What the lowering of a table asks for: records of gates and of constraints, and places of the map. Gives refusals 1 to 6 with their node as the
 * lowering does, and then no room. A table with no bad node has room here; the lowering refuses it with 14. */
uint64_t ramstitcher_room(const uint64_t *table, size_t table_length,
                          const uint64_t *addresses, size_t addresses_length,
                          uint64_t word,
                          size_t *node, uint64_t *gates, uint64_t *constraints, uint64_t *map);

/* Lowers a table. On success the first gate_count records of gates, the first constraint_count of constraints and the places of all nodes in map (so many as
 * ramstitcher_room gives) are written, and beyond them the three buffers are as they were. Both counts are 0 beside a refusal, which leaves the three
 * buffers as they were. node gets the node beside the refusal, or 0. */
uint64_t ramstitcher_lower(const uint64_t *table, size_t table_length,
                           const uint64_t *addresses, size_t addresses_length,
                           uint64_t word,
                           uint32_t *gates, size_t gates_length,
                           uint32_t *constraints, size_t constraints_length,
                           uint32_t *map, size_t map_length,
                           size_t *node, size_t *gate_count, size_t *constraint_count);

/* Works out the values of all nodes, in node order: a node of width 0, a memory, has a slot for each listed address, any other node has one. So many slots are
 * to be lent, or the answer is 12. The slots of inputs and of states without an initial node are given by the caller, and stay; on success the other nodes'
 * slots are written, and slots beyond are as they were. A refusal leaves all slots as they were. node gets the node beside the refusal, or 0. */
uint64_t ramstitcher_eval_words(const uint64_t *table, size_t table_length,
                                const uint64_t *addresses, size_t addresses_length,
                                uint64_t word,
                                uint64_t *values, size_t values_length,
                                size_t *node);

/* Works out the values of a gate list, one byte a gate, 0 or 1; gates_length is RAMSTITCHER_GATE a gate of the list, without room beyond it. The bytes of free
 * gates are given by the caller, and stay; on success the other gates' bytes are written, and bytes beyond are as they were. A refusal leaves all bytes as
 * they were; gate gets the gate beside it, or 0. */
uint64_t ramstitcher_eval_gates(const uint32_t *gates, size_t gates_length,
                                uint8_t *values, size_t values_length,
                                size_t *gate);

#ifdef __cplusplus
}
#endif

#endif
