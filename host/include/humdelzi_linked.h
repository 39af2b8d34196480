/* The linked functions as they are, on slices (docs/ABI.md), and what the typed calls of humdelzi.h are made of: include that file.
 *
 * A slice is a pointer to words and a length; slices do not overlap. Every function but the three unchecked ones may be lent any words
 * whatever. Their order of tests: 11 (the machine), 14 (room for the answer), then 12 or 15 before 13 and 16, also where an operand does
 * not fit its type. Words that form no call are 13: an unknown code, kind, continuation or flag, a nonzero word after the operands, or a
 * length other than six. If they are six and their code names a call, that call's 12 or 15 comes first, and 11 for an unwind without a
 * fault that it takes.
 */
#ifndef HUMDELZI_H
#error "include humdelzi.h"
#endif
#ifndef HUMDELZI_LINKED_H
#define HUMDELZI_LINKED_H

#define BVM_SLICE uint64_t *, size_t
#define BVM_READ const uint64_t *, size_t
#define BVM_EIGHT BVM_SLICE, BVM_SLICE, BVM_SLICE, BVM_SLICE, BVM_SLICE, BVM_SLICE, BVM_SLICE, BVM_SLICE
#define BVM_EIGHT_READ BVM_READ, BVM_READ, BVM_READ, BVM_READ, BVM_READ, BVM_READ, BVM_READ, BVM_READ

/* stack frames chain slots saved_stack saved_frames ready finalize, setup; machine fuel; then */
uint64_t bvm_set_up(BVM_EIGHT, BVM_SLICE, BVM_SLICE, BVM_SLICE, BVM_READ /* given */, BVM_SLICE /* answer */);
uint64_t bvm_call(BVM_EIGHT, BVM_READ, BVM_SLICE, BVM_SLICE, BVM_READ /* call */, BVM_SLICE /* answer */);
uint64_t bvm_call_unchecked(BVM_EIGHT, BVM_READ, BVM_SLICE, BVM_SLICE, BVM_READ /* call */, BVM_SLICE /* answer */);
uint64_t bvm_run(BVM_EIGHT, BVM_READ, BVM_SLICE, BVM_SLICE, BVM_READ /* calls */, BVM_SLICE /* answers */);
/* the same, several times as fast where the calls are switches */
uint64_t bvm_batch(BVM_EIGHT, BVM_READ, BVM_SLICE, BVM_SLICE, BVM_READ /* calls */, BVM_SLICE /* answers */);
/* span: where the top frame's registers begin and end on the stack; 0 and 0 on 11, and without a frame */
uint64_t bvm_look(BVM_EIGHT_READ, BVM_READ, BVM_READ, BVM_READ, BVM_SLICE /* span */);
uint64_t bvm_grant(BVM_EIGHT_READ, BVM_READ, BVM_READ, BVM_SLICE, BVM_SLICE /* answer */, uint64_t amount);
uint64_t bvm_sound(BVM_EIGHT_READ, BVM_READ, BVM_READ, BVM_READ);

/* stack frames chain slots saved_stack saved_frames, machine fuel, operands. 1: the call is done as bvm_call_unchecked does it, and its
 * answer is 0 0 2 0 3 0 0 0. 0: nothing has changed, and bvm_call_unchecked makes the call. */
uint64_t bvm_try_resume_unchecked(BVM_EIGHT, uint32_t pc, uint16_t dst, uint16_t coro, uint16_t src);
uint64_t bvm_try_yield_unchecked(BVM_EIGHT, uint32_t pc, uint16_t dst, uint16_t src);

#define BVM_LEND(s) (s).words, (s).length
#define BVM_SIX(m) BVM_LEND((m)->stack), BVM_LEND((m)->frames), BVM_LEND((m)->chain), BVM_LEND((m)->slots), \
    BVM_LEND((m)->saved_stack), BVM_LEND((m)->saved_frames)
#define BVM_NINE(m) BVM_SIX(m), BVM_LEND((m)->ready), BVM_LEND((m)->finalize), BVM_LEND((m)->setup)

/* ---- the words that each slice needs; width is the larger of the stack and the most registers of a function */

#define BVM_WORDS_STACK(stack) (stack)
#define BVM_WORDS_FRAMES(depth) ((depth) * 6)
#define BVM_WORDS_CHAIN(depth) ((depth) * 6)
#define BVM_WORDS_SLOTS(slots) ((slots) * 20)
#define BVM_WORDS_SAVED_STACK(rows, width) ((rows) * (width))
#define BVM_WORDS_SAVED_FRAMES(rows, depth) ((rows) * (depth) * 6)
#define BVM_WORDS_QUEUE(slots) (slots)
#define BVM_WORDS_SETUP(functions) (14 + (functions) * 35)
/* all of them, for an array that bvm_machine_begin cuts up */
#define BVM_WORDS(depth, stack, rows, slots, functions, width) \
    (BVM_WORDS_STACK(stack) + BVM_WORDS_FRAMES(depth) + BVM_WORDS_CHAIN(depth) + BVM_WORDS_SLOTS(slots) + \
     BVM_WORDS_SAVED_STACK(rows, width) + BVM_WORDS_SAVED_FRAMES(rows, depth) + 2 * BVM_WORDS_QUEUE(slots) + BVM_WORDS_SETUP(functions))

/* the same for a set-up of bvm_setup_of, whose sizes are not changed */
#define BVM_WORDS_OF(functions) BVM_WORDS(32, 256, 16, 64, functions, 256)

/* ---- a set-up in words */

#define BVM_MOST_FUNCTIONS 32

/* how many there are: of more functions than the rules allow, which are refused, the numbers alone */
static inline size_t bvm_setup_words(const bvm_setup *s, uint64_t words[BVM_WORDS_SETUP(BVM_MOST_FUNCTIONS)])
{
    const uint64_t numbers[14] = {s->depth, s->stack, s->rows, s->slots, s->memory, s->costs.frame, s->costs.coroutine, s->costs.object,
        s->costs.integer, s->costs.error, s->costs.iterator, s->has_hook ? 1u : 0u, s->has_hook ? s->hook : 0u, s->functions};
    const size_t count = s->functions <= BVM_MOST_FUNCTIONS ? (size_t)s->functions : 0;
    size_t i, h, at;
    for (i = 0; i < 14; i++) words[i] = numbers[i];
    for (i = 0; i < count; i++) {
        const bvm_function *f = s->function + i;
        uint64_t *w = words + BVM_WORDS_SETUP(i);
        w[0] = f->registers, w[1] = f->parameters, w[2] = f->handlers;
        for (h = 0, at = 3; h < 8; h++, at += 4) {
            const int there = h < f->handlers;
            w[at] = there ? f->handler[h].start : 0, w[at + 1] = there ? f->handler[h].end : 0;
            w[at + 2] = there ? f->handler[h].target : 0, w[at + 3] = there ? f->handler[h].caught : 0;
        }
    }
    return BVM_WORDS_SETUP(count);
}

/* ---- one call in words */

static inline bvm_fault bvm_answer_read(bvm_answer *a, const uint64_t w[8])
{
    a->number = (bvm_fault)w[0], a->word = w[1], a->step = (bvm_step)w[2], a->taken = w[3];
    a->which = (bvm_case)w[4], a->outcome = (bvm_outcome)w[5], a->function = (uint32_t)w[6], a->pc = (uint32_t)w[7];
    return a->number;
}

BVM_MUST_USE static inline bvm_fault bvm_machine_call(
    bvm_machine *m, bvm_fuel *f, bvm_answer *a, uint64_t code, uint64_t o1, uint64_t o2, uint64_t o3, uint64_t o4, uint64_t o5)
{
    const uint64_t call[6] = {code, o1, o2, o3, o4, o5};
    uint64_t answer[8];
#ifdef BVM_UNCHECKED
    bvm_call_unchecked(BVM_NINE(m), m->machine, 25, f->words, 4, call, 6, answer, 8);
#else
    bvm_call(BVM_NINE(m), m->machine, 25, f->words, 4, call, 6, answer, 8);
#endif
    return bvm_answer_read(a, answer);
}

#ifdef BVM_UNCHECKED
/* what a try leaves; inlined it would keep the slices for the second call */
#if defined(__GNUC__)
__attribute__((noinline, cold, unused))
#endif
static bvm_fault bvm_machine_general(bvm_machine *m, bvm_fuel *f, bvm_answer *a, uint64_t code, uint64_t o1, uint64_t o2, uint64_t o3, uint64_t o4)
{
    return bvm_machine_call(m, f, a, code, o1, o2, o3, o4, 0);
}

/* the frame on top goes on */
static inline bvm_fault bvm_machine_goes_on(bvm_answer *a)
{
    a->number = BVM_ACCEPTED, a->word = 0, a->step = BVM_STEP_FRAME, a->taken = 0;
    a->which = BVM_CASE_STEPPED, a->outcome = BVM_OUTCOME_NONE, a->function = a->pc = 0;
    return BVM_ACCEPTED;
}
#endif

#endif
