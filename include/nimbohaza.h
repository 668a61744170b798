/*
 * Nimbohaza: the float machine of molangx, for C99 and C++11.
 *
 * Link with libnimbohaza.a. It needs memset from the C library and nothing else; not libm.
 *
 * Three functions: nimbohaza_check looks at a program file, nimbohaza_run makes one call,
 * nimbohaza_convert converts a stored file. They are proved to answer as document 01 says, with the
 * two step limits, the count of empty pops, the opcodes Floor, Ceil, Trunc and Abs (49 to 52) and
 * the withdrawal of HostMath (22) of document 02; what is proved and what is not is in
 * docs/EMBEDDING.md. What a file's records may hold is in docs/OPCODES.md.
 *
 *
 * Memory
 *
 * The library allocates nothing, frees nothing, keeps no pointer after it returns and has no
 * state of its own. All memory is yours. It writes to the five lent stores of a call alone
 * (`kinds`, `values`, `stack`, `loops`, `handlers`) and to the file that nimbohaza_convert is lent,
 * within the lengths given, and on a refusal to none of them. It calls nothing of yours, and uses
 * less than 1 KB of stack.
 *
 * A slice crosses as a pointer and a length; the length counts entries, not bytes.
 *
 *  - No pointer is NULL, also where the length is 0. An empty slice may have any other pointer
 *    that is aligned for its type; it is never followed.
 *  - Every pointer is aligned for its type, and all entries up to the length are there.
 *  - A slice that is written to overlaps no other slice of the call. Slices that are only read
 *    (file and context) may overlap each other.
 *  - Contents need no care: every byte of a file, cell or store has an answer.
 *
 * Breaking one of the first three rules is undefined behaviour; the library can't test them.
 *
 *
 * Threads
 *
 * Any number of threads may call at once, without a lock, each with lent stores of its own. A
 * file and context cells may be shared while nobody writes to them; nimbohaza_convert writes to its
 * file.
 *
 *
 * Floats
 *
 * A float is given and answered as its 32 bits (IEEE 754 binary32), so that -0.0 keeps its sign.
 * A cell that no record stores to keeps its bits, those of a NaN too. Every NaN that a run takes
 * from a cell, from the context, from `this` or from the file is 7FC00000 to it, whatever its bits:
 * two hosts whose NaNs differ get the same account. nimbohaza_bits and nimbohaza_float below
 * convert.
 *
 *
 * A day
 *
 * A call has two step limits: its own, the guest's (`step_limit`), and the house's (`house_limit`),
 * which is what a partner has left of the day. A charge is made only if both are above zero, and
 * takes one from each; a limit that is not given counts as 2^64 - 1. The reply has what remains of
 * both, and the house remainder goes into the partner's next call, after a refusal too:
 *
 *     terms.house_limit = reply.account.remainders.house;
 *     terms.has_house_limit = 1;
 *
 * nimbohaza_pass_on does both, so that the flag can't be forgotten. A refused call takes nothing
 * from either limit, and its reply has both as the call brought them: a house remainder of 0 is
 * always a day that is used up. So the charges of a day's calls, together with what remains, make
 * the limit that the day began with.
 *
 * The library keeps no day. Make the calls of one day one after another: two calls at once under
 * the same house limit may each spend all of it.
 *
 *
 * Stored files
 *
 * Opcode 22, HostMath, always gives zero and is withdrawn: nimbohaza_check and nimbohaza_run send
 * back a file that carries it (NIMBOHAZA_REFUSED_WITHDRAWN). Convert a stored file once, by
 * nimbohaza_convert, and store it again: each HostMath becomes a PointerEnter to the next record,
 * which gives the same zero for the same charge. The accounts of the converted file equal those
 * that the old one had.
 *
 *
 * Example: v = 2 v + 0.5, twice over the same cell
 *
 *     #include <nimbohaza.h>
 *     #include <stdio.h>
 *
 *     static const uint8_t file[] = {
 *         1, 4, 0, 1, 0, 0, 0,                                  // one name, no temps
 *         2, 0, 0,                                              // no constants
 *         3, 16, 0, 0, 0, 0x80, 0x3F, 0, 0, 0, 0,               // post 0: times 1, plus 0
 *         0, 0, 0, 0x40, 0, 0, 0, 0x3F,                         // post 1: times 2, plus 0.5
 *         4, 0, 0,                                              // no hashes
 *         5, 24, 0, 5, 0, 1, 0, 0, 0, 0, 0,                     // LoadVar 0, post 1
 *         9, 0, 0, 0, 0, 0, 0, 0, 48, 0, 0, 0, 0, 0, 0, 0,      // StoreVar 0; End
 *     };
 *
 *     int main(void)
 *     {
 *         uint8_t kinds[1] = {NIMBOHAZA_FLOAT}, context_kinds[1] = {NIMBOHAZA_MISSING};
 *         uint64_t values[1] = {nimbohaza_bits(1.5f)}, context_values[1] = {0};
 *         uint32_t stack[16], loops[4];
 *         uint64_t handlers[4];
 *         nimbohaza_terms terms;
 *         memset(&terms, 0, sizeof terms);                      // `this` +0.0, no limits
 *         terms.has_step_limit = 1;
 *         terms.step_limit = 1000;
 *         for (int i = 0; i < 2; i++) {
 *             nimbohaza_reply r = nimbohaza_run(
 *                 file, sizeof file, kinds, 1, values, 1, context_kinds, 1, context_values, 1,
 *                 terms, stack, 16, loops, 4, handlers, 4);
 *             if (r.refusal != 0)
 *                 return (int)r.refusal;
 *             printf("outcome %u, value %g, charges %u\n", (unsigned)r.account.end.outcome,
 *                    (double)nimbohaza_float(r.account.end.value),
 *                    (unsigned)r.account.end.charges);
 *         }
 *         return 0;
 *     }
 *
 * It prints
 *
 *   > outcome 0, value 3.5, charges 3
 *   > outcome 0, value 7.5, charges 3
 */
#ifndef NIMBOHAZA_H
#define NIMBOHAZA_H

#include <stddef.h>
#include <stdint.h>
#include <string.h>

#ifdef __cplusplus
extern "C" {
#endif

/* What a cell holds: the entry of `kinds`. The entry of `values` beside it is ... */
enum {
    NIMBOHAZA_MISSING = 0, /* ... anything; it stays as it is */
    NIMBOHAZA_FLOAT = 1,   /* ... the float's bits, below 2^32 */
    NIMBOHAZA_HASH = 2,    /* ... the hash, 64 bits */
    NIMBOHAZA_OTHER = 3    /* ... anything; it stays as it is */
};

/* The largest lengths, in entries. */
enum {
    NIMBOHAZA_MOST_NAMES = 256,    /* names of a program, so cells of a call */
    NIMBOHAZA_MOST_TEMPS = 8,      /* temps of a program */
    NIMBOHAZA_MOST_STACK = 65600,  /* operand stack */
    NIMBOHAZA_MOST_LOOPS = 64,     /* loop counts */
    NIMBOHAZA_MOST_HANDLERS = 64,  /* handlers */
    NIMBOHAZA_MOST_BYTES = 59411   /* the largest file that is accepted */
};

/* Why a file or a call is sent back: the number, and when it is met. 0 is no refusal. What each
   function answers is said beside it. */
enum {
    NIMBOHAZA_ACCEPTED = 0,
    /* tools/answers.py: header_refusals */
    /* bytes end where a tag, length or body is due */
    NIMBOHAZA_REFUSED_END = 1,
    /* tag not the next */
    NIMBOHAZA_REFUSED_TAG = 2,
    /* length not a whole count of entries, or over the maximum (field 1: not 4) */
    NIMBOHAZA_REFUSED_LENGTH = 3,
    /* bytes after field 5 */
    NIMBOHAZA_REFUSED_AFTER = 4,
    /* names over 256 or temps over 8 */
    NIMBOHAZA_REFUSED_COUNTS = 5,
    /* no post 0, or not bits 3F800000, 00000000 */
    NIMBOHAZA_REFUSED_POST_0 = 6,
    /* opcode 0 or above 52 */
    NIMBOHAZA_REFUSED_OPCODE = 7,
    /* choice out of range, or an unused part not 0 */
    NIMBOHAZA_REFUSED_PART = 8,
    /* index outside its table */
    NIMBOHAZA_REFUSED_INDEX = 9,
    /* cells or context not one per name, a kind over 3, a float value of 2^32 or more, a working
       store over its maximum */
    NIMBOHAZA_REFUSED_CALL = 10,
    /* opcode 22 in a file for anything but the converter */
    NIMBOHAZA_REFUSED_WITHDRAWN = 14,
    /* the converter meets a count above 1 at opcode 22 */
    NIMBOHAZA_REFUSED_ARGUMENTS = 15,
    /* tools/answers.py: end */
};

/* How a run ended. */
enum {
    /* tools/answers.py: header_outcomes */
    /* done: the code ended, and the value is the accumulator (otherwise +0.0) */
    NIMBOHAZA_DONE = 0,
    /* stopped for steps: a charge fell due that a step limit forbids */
    NIMBOHAZA_STEPS = 1,
    /* stopped for a missing value: a value is missing and no handler stands */
    NIMBOHAZA_MISSING_VALUE = 2,
    /* stopped for the stack cap: LoopCheck met a stack deeper than 65,536 */
    NIMBOHAZA_STACK_CAP = 3,
    /* stopped for a full store: a push found its lent store full */
    NIMBOHAZA_FULL_STORE = 4,
    /* handed over: the record at the position named is the host's to do */
    NIMBOHAZA_HANDED_OVER = 5,
    /* tools/answers.py: end */
};

/*
 * The terms of a call. All zeros: `this` is +0.0, and there is no limit. Set what you need by the
 * names of the fields: their order is not kept when a limit is added.
 */
typedef struct nimbohaza_terms {
    uint32_t this_bits;      /* the float `this`, as its bits */
    uint32_t loop_limit;     /* a loop goes on while its count of passes is below; the first pass is
                                always made, also under 0 */
    uint64_t step_limit;     /* the guest's own limit: at most so many charges are made */
    uint8_t has_step_limit;  /* 0: no step limit, which counts as 2^64 - 1. Code may loop for ever:
                                set a limit if you don't know the code */
    uint8_t has_loop_limit;  /* 0: no loop limit */
    uint8_t has_house_limit; /* 0: no house limit, which counts as 2^64 - 1 */
    uint64_t house_limit;    /* the house limit, what the partner has left of the day: at most so
                                many, too */
} nimbohaza_terms;

/* The entries of the three working stores that are in use when the run ends. */
typedef struct nimbohaza_depths {
    uint64_t stack;    /* on the operand stack */
    uint64_t loops;    /* open loops */
    uint64_t handlers; /* standing handlers */
} nimbohaza_depths;

/* What the run gave notice of, counted. */
typedef struct nimbohaza_notices {
    uint64_t missing_member;   /* a member was asked for; a float has none */
    uint64_t access_underflow; /* a pointer was left that was not entered */
    uint64_t loop_limit;       /* the loop limit cut a loop short (once a run: 0 or 1) */
} nimbohaza_notices;

/* The temps. */
typedef struct nimbohaza_temps {
    uint32_t numbers[8]; /* bits of each; 0 where it is not given */
    uint8_t given[8];    /* 1 where the run stored to the temp, 0 where it is missing */
} nimbohaza_temps;

/* The end of a run. */
typedef struct nimbohaza_end {
    uint32_t outcome;     /* NIMBOHAZA_DONE .. */
    uint32_t value;       /* bits: the accumulator when done, +0.0 for other outcomes */
    uint64_t position;    /* the record that handed over, from 0; 0 for other outcomes */
    uint64_t charges;     /* charges made, never more than the smaller of the two step limits */
    uint32_t accumulator; /* bits: the accumulator as it stood at the end */
    nimbohaza_depths depths;
    nimbohaza_notices notices;
    uint64_t empty_pops;  /* how often a record took an operand that was not on the stack, which
                             counts as +0.0; at 2^64 - 1 it stays. A compiler's code should have 0 */
    nimbohaza_temps temps;
} nimbohaza_end;

/*
 * What remains of the two step limits, where none counts as 2^64 - 1. After a run each is the limit
 * less the charges made; after a refusal both are what the call brought. Of a run that is stopped
 * for steps at least one is 0: the limit that forbade the charge.
 */
typedef struct nimbohaza_remainders {
    uint64_t guest; /* of `step_limit` */
    uint64_t house; /* of `house_limit`: the house limit of the partner's next call */
} nimbohaza_remainders;

/* The account of a run; the lent stores as they are left complete it. */
typedef struct nimbohaza_account {
    nimbohaza_end end;
    nimbohaza_remainders remainders;
} nimbohaza_account;

/* The answer to a call. */
typedef struct nimbohaza_reply {
    uint32_t refusal;          /* NIMBOHAZA_ACCEPTED, or NIMBOHAZA_REFUSED_.. 1 to 10 or 14 */
    nimbohaza_account account; /* of the run; where the call is refused, `end` is all zeros and
                                  `remainders` are the limits as they came */
} nimbohaza_reply;

/*
 * The number that sends a program file back, 1 to 9 or 14, or NIMBOHAZA_ACCEPTED. Reads the file
 * only. There is no need to call it before nimbohaza_run, which makes the same test on every call.
 */
uint32_t nimbohaza_check(const uint8_t *file, size_t file_length);

/* What the converter answers. */
typedef struct nimbohaza_conversion {
    uint32_t refusal; /* NIMBOHAZA_ACCEPTED, or NIMBOHAZA_REFUSED_.. 1 to 9 or 15 */
    uint32_t records; /* how many records were converted; 0 where the file is sent back */
} nimbohaza_conversion;

/*
 * Converts a stored program file, lent, in its own bytes: each record of opcode 22 becomes a
 * PointerEnter (opcode 37) with post 0 and the position of the next record as target. The other
 * bytes are untouched. A file without such a record is left as it is, and so is one that is sent
 * back: for what nimbohaza_check sends it back for, 1 to 9, or for a HostMath of more than one
 * argument (NIMBOHAZA_REFUSED_ARGUMENTS), which takes operands and so is no PointerEnter.
 *
 * nimbohaza_check accepts what it leaves, where `refusal` is 0.
 */
nimbohaza_conversion nimbohaza_convert(uint8_t *file, size_t file_length);

/*
 * One call: checks the file and the call, runs the program from record 0, and answers the account.
 *
 * file            The program file.
 * kinds, values   The variable cells, lent: one per name of the file in both. They are left as the
 *                 run leaves them, so that a later call may bring them again.
 * context_*       The context cells, read only: also one per name in both.
 * terms           `this`, the two step limits and the loop limit.
 * stack           The operand stack, lent: 0 to 65,600 entries, each a float's bits.
 * loops           The loop counts, lent: 0 to 64 entries.
 * handlers        The handlers, lent: 0 to 64 entries; see NIMBOHAZA_HANDLER_TARGET.
 *
 * What the three working stores hold at entry doesn't matter. After a run the entries below the
 * depths in the reply are the three stacks, lowest first, and those from the depth on are 0.
 */
nimbohaza_reply nimbohaza_run(
    const uint8_t *file, size_t file_length,
    uint8_t *kinds, size_t kinds_length,
    uint64_t *values, size_t values_length,
    const uint8_t *context_kinds, size_t context_kinds_length,
    const uint64_t *context_values, size_t context_values_length,
    nimbohaza_terms terms,
    uint32_t *stack, size_t stack_length,
    uint32_t *loops, size_t loops_length,
    uint64_t *handlers, size_t handlers_length);

/*
 * Passes a day on: the house remainder of a reply, which may be a refusal, becomes the house limit
 * of the partner's next call. Compiled into your program, like the functions below.
 */
static inline void nimbohaza_pass_on(nimbohaza_terms *terms, const nimbohaza_reply *reply)
{
    terms->house_limit = reply->account.remainders.house;
    terms->has_house_limit = 1;
}

/*
 * The parts of an entry of `handlers`, which is target * 2^32 + stack mark * 2^12 + loop mark: the
 * record to go on from, and the depths that stack and loops are cut to.
 */
#define NIMBOHAZA_HANDLER_TARGET(entry) ((uint32_t)((uint64_t)(entry) >> 32))
#define NIMBOHAZA_HANDLER_STACK_MARK(entry) ((uint32_t)((uint64_t)(entry) >> 12 & 0xFFFFFu))
#define NIMBOHAZA_HANDLER_LOOP_MARK(entry) ((uint32_t)((uint64_t)(entry) & 0xFFFu))

/* The 32 bits of a float. */
static inline uint32_t nimbohaza_bits(float x)
{
    uint32_t bits;
    memcpy(&bits, &x, sizeof bits);
    return bits;
}

/* The float of 32 bits. */
static inline float nimbohaza_float(uint32_t bits)
{
    float x;
    memcpy(&x, &bits, sizeof x);
    return x;
}

#ifdef __cplusplus
}
#endif

#endif
