/* The calls of the learner, as a host makes them from C. docs/SPECIFICATION.md says what each call returns and leaves; the
 * paragraphs (§) named here are its. The functions are proved: on any contents each returns and leaves what is written there.
 *
 * What no proof can see is the caller's to guarantee (docs/TRUST.md): pointers are not null, also where a length is 0, and
 * aligned; a length is the number of elements that are there; areas lent to one call do not overlap unless both are only
 * read; nobody else writes a lent area during the call. A call needs up to 1.2 MB of stack, and the deepest tables 3 MB. */
#ifndef KULDVETH_H
#define KULDVETH_H

#include <stddef.h>
#include <stdint.h>

/* The version of this header (§11): it goes up with each change of a layout or of a call, and with each new call.
 * kuldveth_version() tells that of the library that is linked. Where the two differ, make no other call. Tables and lists that
 * calls of version 3 left can be lent as they are. */
#define KULDVETH_VERSION 4

/* Limits (§11). */
#define KULDVETH_WORDS_PER_ROW 6
#define KULDVETH_MOST_ROWS 16384
#define KULDVETH_MOST_SYMBOLS 64
#define KULDVETH_MOST_CHILDREN 4
#define KULDVETH_MOST_LISTED 1024
#define KULDVETH_MOST_STATES 32
#define KULDVETH_MOST_RULES 256
#define KULDVETH_MOST_CONTEXTS 289

/* The run's own lists (§2.2). The host keeps them and lends them to each call; start needs nothing of what they held.
 * 1,232 bytes without padding: a taken start sets every byte, and a host may store, compare and hash them. */
struct kuldveth_lists {
    uint8_t letters;
    uint8_t counts[KULDVETH_MOST_SYMBOLS];
    uint8_t accepted;
    uint16_t used;
    uint16_t states;
    uint16_t s[KULDVETH_MOST_STATES];
    uint16_t rules;
    uint16_t t[KULDVETH_MOST_RULES];
    uint16_t contexts;
    uint16_t c[KULDVETH_MOST_CONTEXTS];
    uint16_t hand;
    uint16_t asked;
};

/* Phases (§3.1). */
enum { KULDVETH_PROPOSING = 0, KULDVETH_ASKING = 1, KULDVETH_ACCEPTED = 2 };

/* What a call tells (§3.3): number 0, then phase, the open row or 0, and the counts; or a refusal's number and zeros.
 * 10 bytes without padding. */
struct kuldveth_seen {
    uint8_t number;
    uint8_t phase;
    uint16_t row;
    uint16_t states;
    uint16_t rules;
    uint16_t contexts;
};

/* What emitting and loading tell (§3.7, §3.9): number 0 and the bytes written or the rules read, or a refusal's number and 0.
 * 8 bytes without padding. */
struct kuldveth_emitted {
    uint32_t number;
    uint32_t size;
};

/* Verdicts on a record (§1.4): its root got a final state, or one that is not final, or some symbol of it found no rule. */
enum { KULDVETH_ACCEPTS = 1, KULDVETH_NOT_FINAL = 2, KULDVETH_NO_RULE = 3 };

/* What the verdict call tells (§3.8): number 0, the outcome, and beside KULDVETH_NO_RULE the place, from 0, of the leftmost
 * innermost symbol that found no rule, beside the others 0; or a refusal's number and zeros. 4 bytes without padding. */
struct kuldveth_judged {
    uint8_t number;
    uint8_t outcome;
    uint16_t place;
};

/* How many symbols, states and rules a list has (§6.3). Of bytes that are no list: number 21 and zeros. */
struct kuldveth_sizes {
    uint16_t number;
    uint16_t symbols;
    uint16_t states;
    uint16_t rules;
};

/* One value of a list (§6.3): found 1 and the value; found 0 and 0 where the list has none; number 21 and zeros where the
 * bytes are no list. */
struct kuldveth_found {
    uint16_t number;
    uint8_t found;
    uint8_t value;
};

/* One rule of a list (§6.3): found 1, its symbol, the number of its child states, these and then zeros, its target. Past the
 * last rule found is 0, and so is all the rest; of bytes that are no list: number 21 and zeros. */
struct kuldveth_rule {
    uint8_t number;
    uint8_t found;
    uint8_t symbol;
    uint8_t children;
    uint8_t states[KULDVETH_MOST_CHILDREN];
    uint8_t target;
};

/* Refusals because of the input (§5.1). Nothing lent changes. */
enum {
    KULDVETH_EMPTY_RECORD = 11,      /* no symbols */
    KULDVETH_LONG_RECORD = 12,       /* over 1,024 symbols */
    KULDVETH_UNKNOWN_SYMBOL = 13,    /* a symbol past the alphabet */
    KULDVETH_FEW_CHILDREN = 14,      /* a symbol wants more children than stand ready */
    KULDVETH_MANY_TREES = 15,        /* more than one tree left */
    KULDVETH_BAD_MARK = 16,          /* answer or mark other than 0 and 1 */
    KULDVETH_BAD_ALPHABET = 17,      /* empty, over 64 symbols, or a count over 4 */
    KULDVETH_BAD_WORDS = 18,         /* not whole rows, no row, or over 16,384 */
    KULDVETH_SHORT_OUTPUT = 20,      /* output too short */
    KULDVETH_BAD_LIST = 21           /* bytes that are no list */
};

/* Refusals because of the state (§5.2). Nothing lent changes. */
enum {
    KULDVETH_UNSOUND = 30,           /* the tables are not sound */
    KULDVETH_NOT_NOW = 31,           /* the call is not allowed now */
    KULDVETH_NOTHING_NEW = 32,       /* the mark is the automaton's verdict already, and contradicts no known answer */
    KULDVETH_CONTRADICTS = 33,       /* the mark contradicts a known answer, whatever the automaton says */
    KULDVETH_NO_ROWS = 34,           /* rows run out */
    KULDVETH_NO_STATES = 35,         /* a 33rd state */
    KULDVETH_NO_RULES = 36           /* a 257th transition */
};

/* The version of the library (§11). */
uint32_t kuldveth_version(void);

/* Start (§3.2): 18, 17. counts has the child count of each symbol. Writes row 0 and the lists. */
struct kuldveth_seen kuldveth_start(uint32_t *words, size_t words_length, struct kuldveth_lists *lists,
                                    const uint8_t *counts, size_t counts_length);

/* An offer (§3.4): symbols, children before parent; mark 1 where the archive keeps the record, 0 where it does not.
 * 18, 30, 31, 11 to 16, 33, 32, then 34 to 36: a contradiction is told, also where the automaton says what the mark says. */
struct kuldveth_seen kuldveth_offer(uint32_t *words, size_t words_length, struct kuldveth_lists *lists,
                                    const uint8_t *symbols, size_t symbols_length, uint8_t mark);

/* An answer to the open question (§3.5): 1 yes, 0 no. 18, 30, 31, 16, then 34 to 36. */
struct kuldveth_seen kuldveth_answer(uint32_t *words, size_t words_length, struct kuldveth_lists *lists, uint8_t mark);

/* Acceptance of the proposal (§3.6): 18, 30, 31. */
struct kuldveth_seen kuldveth_accept(uint32_t *words, size_t words_length, struct kuldveth_lists *lists);

/* Looking (§3.3): 18, 30. Always allowed, changes nothing. */
struct kuldveth_seen kuldveth_look(const uint32_t *words, size_t words_length, const struct kuldveth_lists *lists);

/* Emitting the list of the proposed automaton (§3.7): 18, 30, 31, 20. The bytes past those written stay. */
struct kuldveth_emitted kuldveth_emit(const uint32_t *words, size_t words_length, const struct kuldveth_lists *lists,
                                      uint8_t *out, size_t out_length);

/* The verdict of the proposed automaton on a record (§3.8), symbols as for an offer: 18, 30, 31, 11 to 15. Allowed when emitting
 * is, changes nothing. An offer is tested against this verdict: where it gets 32, the outcome for its record is KULDVETH_ACCEPTS
 * with mark 1, and one of the other two with mark 0. */
struct kuldveth_judged kuldveth_verdict(const uint32_t *words, size_t words_length, const struct kuldveth_lists *lists,
                                        const uint8_t *symbols, size_t symbols_length);

/* Loading a list (§3.9): 21. */
struct kuldveth_emitted kuldveth_load(const uint8_t *bytes, size_t bytes_length);

/* What a list says (§6.3): five calls over the host's bytes, of which none is copied or written. Any bytes and any numbers
 * may be given; bytes that are no list get 21. Each call tests the whole list again, as loading does: some 50 ns for the list
 * of §9, and 10 to 20 microseconds for the longest, whose 256 rules are compared with each other. A host that asks much about
 * a large list keeps what it was told. */

/* How many symbols, states and rules there are. */
struct kuldveth_sizes kuldveth_list_sizes(const uint8_t *bytes, size_t bytes_length);

/* The child count of a symbol; found 0 where the alphabet does not have it. */
struct kuldveth_found kuldveth_list_children(const uint8_t *bytes, size_t bytes_length, uint8_t symbol);

/* Whether a state is final, 1 or 0; found 0 where there is no such state. */
struct kuldveth_found kuldveth_list_final(const uint8_t *bytes, size_t bytes_length, uint8_t state);

/* The rule with a number, from 0 on in the order of the list; found 0 past the last. */
struct kuldveth_rule kuldveth_list_rule(const uint8_t *bytes, size_t bytes_length, uint16_t k);

/* The target of the rule with this symbol and exactly these child states; found 0 where there is no such rule. */
struct kuldveth_found kuldveth_list_target(const uint8_t *bytes, size_t bytes_length, uint8_t symbol,
                                           const uint8_t *states, size_t states_length);

#endif
