/* A host in C: compiles and runs `1 2 +`, then shows what it is told. */
#include "stack_assembly.h"
#include <stdio.h>
#include <string.h>

int main(void)
{
    const char *script = "1 2 +";
    const uint8_t *text = (const uint8_t *)script;
    size_t text_len = strlen(script);
    uint32_t operators[4 * 64], labels[3 * 16], operands[32], calls[8], memory[16];

    struct stack_assembly_compiled c = stack_assembly_compile(text, text_len, operators, 4 * 64, labels, 3 * 16);
    if (c.number != 0)
        return 1;
    struct stack_assembly_eval eval = {
        stack_assembly_new(memory, 16),
        {text, text_len, operators, 4 * 64, labels, 3 * 16, c.operator_count, c.label_count},
        operands, 32, calls, 8, memory, 16,
    };
    struct stack_assembly_answer a = stack_assembly_run(&eval, 100000);
    printf("%lu %lu %lu\n", (unsigned long)a.number, (unsigned long)a.value, (unsigned long)a.steps);
    for (size_t i = 0; i < eval.state.operand_depth; i++)
        printf("%ld\n", (long)(int32_t)operands[i]);

    struct stack_assembly_located plus = stack_assembly_source(&eval.tables, 2);
    printf("%.*s\n", (int)(plus.end - plus.start), script + plus.start);
    printf("%lu\n", (unsigned long)stack_assembly_call_stack(&eval, 0).number);
    return 0;
}
