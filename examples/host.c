/* The worked run (docs/SPECIFICATION.md, §9) through the library: o has one child, p none; the archive keeps o[p] alone. */
#include "../include/kuldveth.h"

#include <stdio.h>

_Static_assert(sizeof(struct kuldveth_lists) == 1232, "lists without padding");
_Static_assert(sizeof(struct kuldveth_seen) == 10, "what a call tells, without padding");
_Static_assert(sizeof(struct kuldveth_emitted) == 8, "what emitting tells, without padding");
_Static_assert(sizeof(struct kuldveth_judged) == 4, "what the verdict call tells, without padding");
_Static_assert(sizeof(struct kuldveth_sizes) == 8, "the sizes of a list, without padding");
_Static_assert(sizeof(struct kuldveth_found) == 4, "a value of a list, without padding");
_Static_assert(sizeof(struct kuldveth_rule) == 9, "a rule of a list, without padding");

static uint32_t words[KULDVETH_WORDS_PER_ROW * 5];
static struct kuldveth_lists lists;
static uint8_t bytes[4096];

/* One line for what a call told. */
static void tell(struct kuldveth_seen seen)
{
    if (seen.number != 0)
        printf("refused %d\n", seen.number);
    else if (seen.phase == KULDVETH_ASKING)
        printf("ask row %d\n", seen.row);
    else if (seen.phase == KULDVETH_ACCEPTED)
        printf("accepted\n");
    else
        printf("propose %d %d %d\n", seen.states, seen.rules, seen.contexts);
}

/* One line for the verdict on a record. */
static void judge(const uint8_t *symbols, size_t count)
{
    const size_t length = sizeof words / sizeof words[0];
    const struct kuldveth_judged judged = kuldveth_verdict(words, length, &lists, symbols, count);
    printf("verdict on");
    for (size_t i = 0; i < count; i++)
        printf(" %d", symbols[i]);
    if (judged.number != 0)
        printf(": refused %d\n", judged.number);
    else if (judged.outcome == KULDVETH_ACCEPTS)
        printf(": accepted\n");
    else if (judged.outcome == KULDVETH_NOT_FINAL)
        printf(": not final\n");
    else
        printf(": no rule at place %d\n", judged.place);
}

/* The automaton that a list is: its states, then rule by rule. */
static void show_list(const uint8_t *list, size_t length)
{
    const struct kuldveth_sizes sizes = kuldveth_list_sizes(list, length);
    for (uint8_t state = 0; state < sizes.states; state++)
        printf("state %d%s\n", state, kuldveth_list_final(list, length, state).value == 1 ? ", final" : "");
    for (uint16_t k = 0; k < sizes.rules; k++) {
        const struct kuldveth_rule rule = kuldveth_list_rule(list, length, k);
        printf("symbol %d", rule.symbol);
        for (uint8_t i = 0; i < rule.children; i++)
            printf(", child state %d", rule.states[i]);
        printf(": state %d\n", rule.target);
    }

    const uint8_t child[] = {1};
    const struct kuldveth_found target = kuldveth_list_target(list, length, 0, child, sizeof child);
    if (target.found == 1)
        printf("symbol 0, child state 1: state %d\n", target.value);
    else
        printf("symbol 0, child state 1: no rule\n");
}

int main(void)
{
    const size_t length = sizeof words / sizeof words[0];
    const uint8_t counts[] = {1, 0};
    const uint8_t p[] = {1}, op[] = {1, 0}, ooop[] = {1, 0, 0, 0};

    if (kuldveth_version() != KULDVETH_VERSION) {
        fprintf(stderr, "the library has version %u, the header %u\n", (unsigned)kuldveth_version(), KULDVETH_VERSION);
        return 1;
    }
    tell(kuldveth_start(words, length, &lists, counts, sizeof counts));
    judge(op, sizeof op);
    tell(kuldveth_offer(words, length, &lists, op, sizeof op, 1));
    judge(op, sizeof op);
    tell(kuldveth_answer(words, length, &lists, 0));
    judge(op, sizeof op);
    tell(kuldveth_offer(words, length, &lists, op, sizeof op, 1));
    tell(kuldveth_answer(words, length, &lists, 0));
    tell(kuldveth_offer(words, length, &lists, op, sizeof op, 1));
    judge(op, sizeof op);
    tell(kuldveth_accept(words, length, &lists));
    judge(ooop, sizeof ooop);
    judge(p, sizeof p);
    tell(kuldveth_look(words, length, &lists));

    const struct kuldveth_emitted list = kuldveth_emit(words, length, &lists, bytes, sizeof bytes);
    printf("emitted %u %u:", (unsigned)list.number, (unsigned)list.size);
    for (uint32_t i = 0; i < list.size; i++)
        printf(" %02x", bytes[i]);
    const struct kuldveth_emitted rules = kuldveth_load(bytes, list.size);
    printf("\nloaded %u %u\n", (unsigned)rules.number, (unsigned)rules.size);
    show_list(bytes, list.size);
    return 0;
}
