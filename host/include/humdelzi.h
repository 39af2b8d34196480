/* A proved coroutine switch, for C and C++ programs: a machine in words that the host lends, and one inline function for each call of
 * "01", the build description with the exact rules. Link with -lhumdelzi (libhumdelzi.a; `pkg-config --cflags --libs humdelzi`).
 *
 * A machine is well-formed ("sound" in 01) if its words keep 01's rules. Every function tests the words first, and answers 11 if they are
 * not well-formed. A set-up that answers 0 leaves a well-formed machine, and every call leaves it well-formed.
 *
 * A host may define BVM_UNCHECKED before this file is included, if only these functions write the machine's words and the fuel's four.
 * The calls then leave out the test. A Resume or Yield that nothing refuses goes by a function of its own, several times as fast. Such a
 * host makes no call before a set-up that answered 0, or before bvm_machine_sound returned 1 for words from elsewhere. On words that are
 * not well-formed an unchecked call is undefined behaviour: it may read and write anywhere.
 *
 * Each call stands here in one form: what it needs, does, answers, and leaves where it is not accepted. A refusal by 11, 12, 13, 15 or 16
 * changes no word. In the docs of the calls, "raised" means: the answer's step is BVM_STEP_FAULT or BVM_STEP_UNWIND.
 *
 * The linked functions are bvm_NAME, on slices; the typed ones of this file are bvm_machine_NAME. With one form, five names would meet:
 * set_up, call, look, grant and sound.
 */
#ifndef HUMDELZI_H
#define HUMDELZI_H

#include <stddef.h>
#include <stdint.h>

#define BVM_VERSION "0.1.0"

#ifdef __cplusplus
extern "C" {
#endif

/* an answer is not to be dropped */
#if defined(__GNUC__)
#define BVM_MUST_USE __attribute__((warn_unused_result))
#else
#define BVM_MUST_USE
#endif

/* ---- the numbers */

/* the fault sheet: what every call returns */
typedef enum {
    BVM_ACCEPTED,                   /*  0 */
    BVM_FAULT_NULL_REFERENCE,       /*  1 nil or a dead reference */
    BVM_FAULT_TYPE_ERROR,           /*  2 wrong kind of object or word, wrong argument count, await in a loop */
    BVM_FAULT_INVALID_CORO_STATE,   /*  3 coroutine state forbids it, or handed over before */
    BVM_FAULT_STACK_OVERFLOW,       /*  4 depth or stack limit passed */
    BVM_FAULT_CANNOT_SUSPEND,       /*  5 suspending without an active coroutine */
    BVM_FAULT_CLOSE_IGNORED,        /*  6 yield while closing */
    BVM_FAULT_ARITH_OVERFLOW,       /*  7 integer out of range */
    BVM_FAULT_NO_SCHEDULER,         /*  8 Spawn without a hook */
    BVM_FAULT_OUT_OF_MEMORY,        /*  9 a memory charge or fit test fails */
    BVM_FAULT_OUT_OF_FUEL,          /* 10 bank and fuel both used up */
    BVM_FAULT_UNSOUND,              /* 11 set-up or machine breaks the rules, or unwind gets no such fault */
    BVM_FAULT_NO_FRAME,             /* 12 instruction, put word or function call without a frame */
    BVM_FAULT_BAD_OPERAND,          /* 13 register outside the frame, no such function, continuation not allowed */
    BVM_FAULT_FULL,                 /* 14 every slot taken, or every row held by an unfinished coroutine */
    BVM_FAULT_BUSY,                 /* 15 host call or entry while a frame stands */
    BVM_FAULT_GRANT_TOO_LARGE,      /* 16 grant's sum above 2^64 - 1 */
    BVM_FAULT_THROW                 /* 17 a thrown or uncaught word, given with the answer */
} bvm_fault;

/* how the program goes on after an instruction: with the next one; at the pc of the frame on top; by bvm_machine_unwind_at with the
 * instruction's pc; by bvm_machine_unwind in the frame on top. bvm_machine_raise does either. NONE: no instruction, or one refused. */
typedef enum { BVM_STEP_NONE, BVM_STEP_NEXT, BVM_STEP_FRAME, BVM_STEP_FAULT, BVM_STEP_UNWIND } bvm_step;

/* which answer it is */
typedef enum {
    BVM_CASE_ACCEPTED,  /* with no word */
    BVM_CASE_WORD,      /* make iterator, spawn_task: with its word */
    BVM_CASE_REFUSED,   /* no instruction, or one at its gate (12, 13) */
    BVM_CASE_STEPPED,   /* an instruction past its gate: see the step */
    BVM_CASE_CLEANUP,   /* its charge started a cleanup: nil is to be unwound, and the instruction comes again after */
    BVM_CASE_UNPAID,    /* Spawn's 10 at its hook: the coroutine was made, and one unit is gone */
    BVM_CASE_EXIT,      /* finish: the run is over, with no word */
    BVM_CASE_EXIT_WORD, /* finish: the run is over, with this word, or with the bits of an integer */
    BVM_CASE_RESUME,    /* finish: goes on at the pc of the frame on top, or without one at the host */
    BVM_CASE_CAUGHT,    /* unwind: a handler was taken: goes on at the pc of the frame on top */
    BVM_CASE_STOPPED,   /* unwind: at the host, at a cleanup, or at a close that succeeded */
    BVM_CASE_TOOK       /* take outcome: see the outcome */
} bvm_case;

/* what a coroutine that the host drives did */
typedef enum {
    BVM_OUTCOME_NONE, BVM_OUTCOME_YIELDED, BVM_OUTCOME_AWAITING, BVM_OUTCOME_RETURNED, BVM_OUTCOME_FAILED, BVM_OUTCOME_CLOSE_IGNORED
} bvm_outcome;

/* a coroutine's state, as coro_status writes it */
typedef enum {
    BVM_STATE_CREATED, BVM_STATE_RUNNING, BVM_STATE_YIELDED, BVM_STATE_AWAITING, BVM_STATE_RETURNED, BVM_STATE_FAILED
} bvm_state;

/* the kind of a result: none, a word, an integer as its 64 bits */
typedef enum { BVM_RESULT_NONE, BVM_RESULT_WORD, BVM_RESULT_I64, BVM_RESULT_U64 } bvm_result;

/* what happens to a frame's result: WRITE its bits go to a register, VALUE the same, nil for none; DYN as a word goes to a register, an
 * integer inline or as an object; DISCARD dropped. The others are refused with 13: of a host call, and of a coroutine's body. */
typedef enum { BVM_CONT_ENTRY, BVM_CONT_WRITE, BVM_CONT_DYN, BVM_CONT_VALUE, BVM_CONT_DISCARD, BVM_CONT_CORO } bvm_cont;

/* ---- words: nil is 0 */

/* of an integer from -2^47 to 2^47 - 1; of another, not its word */
static inline uint64_t bvm_int(int64_t n) { return (uint64_t)0xFFFE << 48 | ((uint64_t)n & (((uint64_t)1 << 48) - 1)); }
static inline int bvm_is_int(uint64_t word) { return word >> 48 == 0xFFFE; }
static inline int64_t bvm_as_int(uint64_t word) { return (int64_t)((word & (((uint64_t)1 << 48) - 1)) ^ ((uint64_t)1 << 47)) - ((int64_t)1 << 47); }
/* of the object in a slot */
static inline uint64_t bvm_slot(uint32_t slot) { return (uint64_t)1 << 48 | slot; }
/* of a function's object: a set-up makes one for each, in slots from 0 */
static inline uint64_t bvm_function_object(uint32_t function) { return bvm_slot(function); }

/* ---- a set-up */

/* a word raised at a pc from start up to, not including, end goes to the register `caught`, and the function goes on at target */
typedef struct {
    uint32_t start, end, target;
    uint16_t caught;
} bvm_handler;

/* registers 0 to 256, parameters at most as many, at most eight handlers, the first that covers a pc is taken */
typedef struct {
    uint64_t registers, parameters, handlers;
    bvm_handler handler[8];
} bvm_function;

/* bytes charged for a frame, a coroutine at its fit test, its object, an integer, an error, an iterator; each 0 to 65,536 */
typedef struct {
    uint64_t frame, coroutine, object, integer, error, iterator;
} bvm_costs;

/* depth 1 to 128 frames, stack 1 to 1,024 words, rows 1 to 64, slots 1 to 4,096 and not fewer than functions, functions 1 to 32; memory
 * any number of bytes. The hook, if there is one, is a function with a register. */
typedef struct {
    uint64_t depth, stack, rows, slots, memory;
    bvm_costs costs;
    int has_hook;
    uint32_t hook;
    uint64_t functions;
    const bvm_function *function;
} bvm_setup;

/* 32 frames, 256 words of stack, 16 rows, 64 slots, all memory, the original's costs, no hook: as the Rust crate's Setup::new(). Any of
 * them may be changed. BVM_WORDS_OF(functions) words are enough for it as it is, else bvm_setup_room(&setup). */
static inline bvm_setup bvm_setup_of(const bvm_function *function, uint64_t functions)
{
    const bvm_setup s = {32, 256, 16, 64, UINT64_MAX, {32, 104, 160, 56, 56, 112}, 0, 0, functions, function};
    return s;
}

/* ---- a machine, its fuel, an answer */

typedef struct {
    uint64_t *words;
    size_t length;
} bvm_slice;

/* nine slices that the host lends, and the machine's numbers */
typedef struct {
    bvm_slice stack, frames, chain, slots, saved_stack, saved_frames, ready, finalize, setup;
    uint64_t machine[25];
} bvm_machine;

/* what is left; 1 and how much is in the bank, or 0 and 0; 1 if a cleanup is due. It is the host's. Go on with the same record: a blank
 * one after a hand over loses the mark, and the cleanup waits until something marks it again, as another hand over. bvm_fuel_of makes one
 * with the mark. */
typedef struct {
    uint64_t words[4];
} bvm_fuel;

static inline uint64_t bvm_fuel_left(const bvm_fuel *f) { return f->words[0]; }
static inline int bvm_fuel_has_bank(const bvm_fuel *f) { return f->words[1] == 1; }
static inline uint64_t bvm_fuel_banked(const bvm_fuel *f) { return f->words[2]; }
static inline int bvm_fuel_cleanup_ready(const bvm_fuel *f) { return f->words[3] == 1; }

/* another record for a machine, with an amount: in the bank and marked where the machine's cleanup queue has somebody and no cleanup runs */
static inline bvm_fuel bvm_fuel_of(const bvm_machine *m, uint64_t amount)
{
    bvm_fuel f = {{amount, 0, 0, 0}};
    if (m->machine[5] != 0 && m->machine[6] == 0) f.words[0] = 0, f.words[1] = 1, f.words[2] = amount, f.words[3] = 1;
    return f;
}

/* number: what the call returned. word: of a 17, of make iterator and spawn_task, of an exit or an outcome, else 0. taken: how many words
 * of the cleanup queue an instruction's charge took off. function, pc: of a failed outcome. */
typedef struct {
    bvm_fault number;
    uint64_t word;
    bvm_step step;
    uint64_t taken;
    bvm_case which;
    bvm_outcome outcome;
    uint32_t function, pc;
} bvm_answer;

/* the fault sheet's words of a number */
static inline const char *bvm_fault_words(bvm_fault number)
{
    static const char *const sheet[18] = {
        "accepted", "nil or a dead reference", "wrong kind of object or word, wrong argument count, await in a loop",
        "coroutine state forbids it, or handed over before", "depth or stack limit passed", "suspending without an active coroutine",
        "yield while closing", "integer out of range", "Spawn without a hook", "a memory charge or fit test fails",
        "bank and fuel both used up", "set-up or machine breaks the rules, or unwind gets no such fault",
        "instruction, put word or function call without a frame", "register outside the frame, no such function, continuation not allowed",
        "every slot taken, or every row held by an unfinished coroutine", "host call or entry while a frame stands",
        "grant's sum above 2^64 - 1", "a thrown or uncaught word, given with the answer"};
    return (unsigned)number < 18 ? sheet[number] : "no such number";
}

#include "humdelzi_linked.h"
#include "humdelzi_calls.h"

#ifdef __cplusplus
}
#endif

#endif
