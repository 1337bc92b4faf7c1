/* The structs of the header on x86-64: their sizes, and where their fields lie. As C11 and as C++17. */
#include "stack_assembly.h"
#include <assert.h>

#define SIZE(name, size) static_assert(sizeof(struct stack_assembly_##name) == (size), #name)
#define PLACE(name, field, place) static_assert(offsetof(struct stack_assembly_##name, field) == (place), #name "." #field)

SIZE(state, 32);
PLACE(state, next_operator, 0);
PLACE(state, operand_depth, 8);
PLACE(state, call_depth, 16);
PLACE(state, effect, 24);
PLACE(state, effect_operator, 28);

SIZE(tables, 64);
PLACE(tables, text, 0);
PLACE(tables, text_len, 8);
PLACE(tables, operators, 16);
PLACE(tables, operators_len, 24);
PLACE(tables, labels, 32);
PLACE(tables, labels_len, 40);
PLACE(tables, operator_count, 48);
PLACE(tables, label_count, 56);

SIZE(eval, 144);
PLACE(eval, state, 0);
PLACE(eval, tables, 32);
PLACE(eval, operand_stack, 96);
PLACE(eval, operand_stack_len, 104);
PLACE(eval, call_stack, 112);
PLACE(eval, call_stack_len, 120);
PLACE(eval, memory, 128);
PLACE(eval, memory_len, 136);

SIZE(answer, 16);
PLACE(answer, number, 0);
PLACE(answer, steps, 4);
PLACE(answer, value, 8);

SIZE(compiled, 32);
PLACE(compiled, number, 0);
PLACE(compiled, value, 8);
PLACE(compiled, operator_count, 16);
PLACE(compiled, label_count, 24);

SIZE(located, 32);
PLACE(located, answer, 0);
PLACE(located, start, 16);
PLACE(located, end, 24);
