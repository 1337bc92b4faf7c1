/* The StackAssembly engine for C: compile a script, evaluate it step by step or up to a budget, look at its stacks and memory.
 *
 * Link with libstack_assembly_c.a (rust/staticlib.sh writes it to target/staticlib/), on x86-64 Linux, for processors of level
 * x86-64-v2 and up. The library allocates nothing, keeps nothing between calls and calls nothing of yours: all that it works on is
 * lent to it for one call. Any calls may run at the same time as long as nothing that one of them writes is lent to another; text
 * and tables are written by compile alone.
 *
 *     uint32_t operators[4 * 64], labels[3 * 16], operands[32], calls[8], memory[16];
 *     struct stack_assembly_compiled c = stack_assembly_compile(text, text_len, operators, 4 * 64, labels, 3 * 16);
 *     if (c.number != 0) return refused(c.number, c.value);
 *     struct stack_assembly_eval eval = {
 *         stack_assembly_new(memory, 16),
 *         {text, text_len, operators, 4 * 64, labels, 3 * 16, c.operator_count, c.label_count},
 *         operands, 32, calls, 8, memory, 16,
 *     };
 *     struct stack_assembly_answer a = stack_assembly_run(&eval, 100000);
 *     a.number is the number, a.value the value, a.steps the steps made, and eval is lent to the next call as it is.
 *
 * Buffers. You own them all, before, during and after a call, and the structs that name them. A buffer is a pointer and a
 * length, the text's in bytes, all others in words of 32 bits; its length is its capacity. Null with length 0 is an empty buffer.
 * It is your part that pointers and lengths are true, that words are aligned, that the pointer to a struct is not null, and that
 * neither the buffers of one call nor the struct that it is given overlap each other: nothing can test that. Any bytes, words,
 * counts, depths and other numbers may be lent: what does not fit the buffers is refused by a number. Between calls leave text,
 * tables and stacks as the last call left them.
 *
 * Numbers. Each call answers one number, and a value with it:
 *
 *      0  done; the value is said at each call
 *         An effect of the script. The value is the index of the operator that triggered it.
 *      1  AssertionFailed            `assert` found zero
 *      2  DivisionByZero             `/` by zero
 *      3  IntegerOverflow            -2147483648 -1 /
 *      4  InvalidAddress             `read` or `write` outside memory
 *      5  InvalidOperandStackIndex   `copy` or `drop` at or past the depth
 *      6  InvalidReference           no label has the reference's name
 *      7  OperandStackUnderflow      an operator found too few operands; those it popped stay popped
 *      8  OutOfOperators             past the last operator: the regular end
 *      9  Return                     `return` with an empty call stack: a regular end, too
 *     10  UnknownIdentifier          an identifier is none of the language's 30 words
 *     11  Yield                      `yield`: the script hands control to you
 *         A refusal. The call changed nothing; a run has made the steps that it counts, and no more.
 *     21  the text is not well-formed UTF-8       value: offset of the first ill-formed sequence
 *     22  the text is too long                    value: 65535, the most that is taken
 *     23  more operators than the table holds     value: the operators in the text
 *     24  more labels than the table holds        value: the labels in the text
 *     25  a depth or count over its capacity, an effect above 11, or a listed call stack entry 0     value: 0
 *     26  a record in a table is damaged          value: its place in the table
 *     27  a word is to be pushed, the operand stack is full     value: its depth
 *     28  a call is made, the call stack is full  value: its depth
 *     29  the budget is used, no effect yet       value: the next operator
 *     30  pop from an empty operand stack         value: 0
 *     31  no such address, operator index or call stack place   value: it
 */
#ifndef STACK_ASSEMBLY_H
#define STACK_ASSEMBLY_H

#include <stddef.h>
#include <stdint.h>

#ifdef __cplusplus
extern "C" {
#endif

/* The state: the next operator, both depths, the standing effect's number (0: none) and the operator that triggered it. Each of the
 * seven calls gets it in an evaluation, and leaves the new one there. */
struct stack_assembly_state {
    uint32_t next_operator;
    size_t operand_depth, call_depth;
    uint32_t effect, effect_operator;
};

/* A script: its text, the tables as compile left them, and both counts, as compile answered them. */
struct stack_assembly_tables {
    const uint8_t *text;
    size_t text_len;
    const uint32_t *operators;
    size_t operators_len;
    const uint32_t *labels;
    size_t labels_len;
    size_t operator_count, label_count;
};

/* An evaluation, which is all that each of the seven calls is lent: the state, the script, and the two stacks and the memory, which
 * the call may change. A stack's top is at its depth minus 1. A call changes the state and the words of these three buffers, and
 * nothing else of what the struct has or names.
 *
 * What a call leaves in a stack: below the depth its words; from there up to the greatest depth that the stack had before or in the
 * call, zero in each word, since a word that is released (popped, also before an effect, dropped, or returned to) becomes zero; and
 * from there on all words as they were. In the memory: what the script and you wrote. So in stacks that were zero before the first
 * call, every word from the depth on is zero after any calls.
 *
 * Before you lend such buffers to someone else, clear the words that are left: the first operand_depth words of the operand stack
 * and the first call_depth words of the call stack; stack_assembly_new clears the memory. The tables keep the records of the last
 * script, integers among them, where the next one has fewer: clear them whole. */
struct stack_assembly_eval {
    struct stack_assembly_state state;
    struct stack_assembly_tables tables;
    uint32_t *operand_stack;
    size_t operand_stack_len;
    uint32_t *call_stack;
    size_t call_stack_len;
    uint32_t *memory;
    size_t memory_len;
};

/* A number, the steps that count, and the value that goes with the number. */
struct stack_assembly_answer {
    uint32_t number, steps;
    size_t value;
};

/* What compile answers: number and value, and both counts, which are 0 where the text is refused. */
struct stack_assembly_compiled {
    uint32_t number;
    size_t value, operator_count, label_count;
};

/* Where an operator stands in the text, end excluded; both 0 where it is refused. */
struct stack_assembly_located {
    struct stack_assembly_answer answer;
    size_t start, end;
};

/* Reads a script's text and writes one record for each operator and each label to the front of the two tables; no other word is
 * written, and none at all where the text is refused. An operator record has four words: kind (0 identifier, 1 integer, 2
 * reference), start and end in the text (end excluded), value (an integer's bits, else 0). A label record has three: start and
 * end of its name, index of the operator that it names. Tables of 4 * ((text_len + 1) / 2) and 3 * ((text_len + 1) / 2) words
 * hold any text. The value of an accepted text is its operator count. Refusals: 22, 21, 23, 24, tested in that order. */
struct stack_assembly_compiled stack_assembly_compile(const uint8_t *text, size_t text_len, uint32_t *operators,
                                                      size_t operators_len, uint32_t *labels, size_t labels_len);

/* Starts an evaluation: fills the memory with zero words, and answers a state of zeros. */
struct stack_assembly_state stack_assembly_new(uint32_t *memory, size_t memory_len);

/* The following seven calls answer 25 first. Where nothing else is said, the steps are 0. */

/* One step: evaluates the next operator. The number is the effect that stands after it, or 0 with value 0; steps is 1. While an
 * effect stands a step advances the next operator and does no more. Refusals: 26, 27, 28, with steps 0. */
struct stack_assembly_answer stack_assembly_step(struct stack_assembly_eval *eval);

/* Steps until one gives an effect or a refusal, or until `budget` steps are made, which is 29; of budget 0 it is so at once. Steps
 * is how many were made, those before a refusal too. While an effect stands the first step advances the next operator and answers
 * it. Refusals: 26, 27, 28, 29. */
struct stack_assembly_answer stack_assembly_run(struct stack_assembly_eval *eval, uint32_t budget);

/* Removes the standing effect, so that the script can go on. The answer is what was removed, effect and operator, or 0 and 0. */
struct stack_assembly_answer stack_assembly_clear(struct stack_assembly_eval *eval);

/* Pushes a word onto the operand stack; value 0. Refusal: 27. */
struct stack_assembly_answer stack_assembly_push(struct stack_assembly_eval *eval, uint32_t word);

/* Pops a word from the operand stack, which is the value. Refusal: 30. */
struct stack_assembly_answer stack_assembly_pop(struct stack_assembly_eval *eval);

/* Reads the word of memory at an address, which is the value. Refusal: 31. */
struct stack_assembly_answer stack_assembly_read(struct stack_assembly_eval *eval, uint32_t address);

/* Writes a word of memory at an address; value 0. Refusal: 31. */
struct stack_assembly_answer stack_assembly_write(struct stack_assembly_eval *eval, uint32_t address, uint32_t word);

/* Where an operator stands in the text; an effect's value is such an index. The labels are not looked at. Where accepted, the value
 * is 0; steps is 0. Refusals: 25 for the operator count, 31, 26, in that order. */
struct stack_assembly_located stack_assembly_source(const struct stack_assembly_tables *tables, uint32_t index);

/* The call stack by place, 0 being the top: the value is the index of the operator that made the call, which is the entry minus
 * 1; steps is 0. Of the evaluation only the call depth and the call stack are looked at. Refusals: 25 for the depth, 31, 25 for an
 * entry 0, in that order. */
struct stack_assembly_answer stack_assembly_call_stack(const struct stack_assembly_eval *eval, size_t place);

#ifdef __cplusplus
}
#endif

#endif
