/* What each function of humdelzi.h passes on: the library's functions are here, and print the words of a call and hold each slice to the
 * machine's. Every operand has a number of its own. */
#include <stdio.h>
#include <string.h>
#include "humdelzi.h"

static uint64_t room[10];
static bvm_machine m;
static bvm_fuel f;
static bvm_answer a;
static const char *name;
static int wrong;
/* what a try answers, how many there were, and the words of the last one's call */
static uint64_t done;
static int tries;
static uint64_t tried[6];
/* an answer's words, each another: a number, a word, a step, a count, a case, an outcome, a function, a pc */
static const uint64_t answers[8] = {16, 21, 4, 23, 9, 5, 26, 27};

#define S(x) uint64_t *x, size_t x##_length
#define R(x) const uint64_t *x, size_t x##_length
#define EIGHT(T) T(stack), T(frames), T(chain), T(slots), T(saved_stack), T(saved_frames), T(ready), T(finalize)

#define IS(slice, at, words) (slice != (at) || slice##_length != (words))
#define SIX                                                                                                                            \
    (IS(stack, room, 1) || IS(frames, room + 1, 2) || IS(chain, room + 2, 3) || IS(slots, room + 3, 4) || IS(saved_stack, room + 4, 5)  \
     || IS(saved_frames, room + 5, 6) || IS(machine, m.machine, 25) || IS(fuel, f.words, 4))
#define MACHINE (SIX || IS(ready, room + 6, 7) || IS(finalize, room + 7, 8) || IS(setup, room + 8, 9))

static uint64_t told(int off, const uint64_t *words, size_t count, uint64_t *answer, size_t answer_length)
{
    size_t i;

    wrong += off || answer_length != 8;
    printf("%s", name);
    for (i = 0; i < count; i++)
        printf(" %llu", (unsigned long long)words[i]);
    printf("\n");
    memcpy(answer, answers, sizeof answers);
    return answers[0];
}

/* where a switch was tried, the call that follows is that switch */
static uint64_t call_told(int off, const uint64_t *call, size_t length, uint64_t *answer, size_t answer_length)
{
    wrong += tried[0] != 0 && memcmp(call, tried, sizeof tried) != 0;
    tried[0] = 0;
    return told(off || length != 6, call, length, answer, answer_length);
}

static uint64_t try_told(int off, uint64_t n, uint64_t o1, uint64_t o2, uint64_t o3, uint64_t o4)
{
    const uint64_t words[6] = {n, o1, o2, o3, o4, 0};

    wrong += off;
    tries++;
    memcpy(tried, words, sizeof tried);
    return done;
}

uint64_t bvm_call(EIGHT(S), R(setup), S(machine), S(fuel), R(call), S(answer))
{
    return call_told(MACHINE, call, call_length, answer, answer_length);
}

uint64_t bvm_call_unchecked(EIGHT(S), R(setup), S(machine), S(fuel), R(call), S(answer))
{
    return call_told(MACHINE, call, call_length, answer, answer_length);
}

uint64_t bvm_try_resume_unchecked(S(stack), S(frames), S(chain), S(slots), S(saved_stack), S(saved_frames), S(machine), S(fuel), uint32_t pc, uint16_t dst, uint16_t coro, uint16_t src)
{
    return try_told(SIX, 6, pc, dst, coro, src);
}

uint64_t bvm_try_yield_unchecked(S(stack), S(frames), S(chain), S(slots), S(saved_stack), S(saved_frames), S(machine), S(fuel), uint32_t pc, uint16_t dst, uint16_t src)
{
    return try_told(SIX, 3, pc, dst, src, 0);
}

uint64_t bvm_set_up(EIGHT(S), S(setup), S(machine), S(fuel), R(given), S(answer))
{
    return told(MACHINE, given, given_length, answer, answer_length);
}

uint64_t bvm_look(EIGHT(R), R(setup), R(machine), R(fuel), S(span))
{
    wrong += MACHINE || span_length != 2;
    span[0] = 3, span[1] = 5;
    return 0;
}

uint64_t bvm_sound(EIGHT(R), R(setup), R(machine), R(fuel))
{
    return wrong += MACHINE, 1;
}

/* the answer arrives by its names, and is cleared for the next */
static int arrived(bvm_fault returned)
{
    const int is = returned == BVM_FAULT_GRANT_TOO_LARGE && a.number == BVM_FAULT_GRANT_TOO_LARGE && a.word == 21 && a.step == BVM_STEP_UNWIND
        && a.taken == 23 && a.which == BVM_CASE_CAUGHT && a.outcome == BVM_OUTCOME_CLOSE_IGNORED && a.function == 26 && a.pc == 27;

    memset(&a, 0, sizeof a);
    return is;
}

#define SAY(call, ...) (name = #call, wrong += !arrived(bvm_machine_##call(&m, &f, &a, __VA_ARGS__)))
#define SAY_BARE(call) (name = #call, wrong += !arrived(bvm_machine_##call(&m, &f, &a)))

int main(void)
{
    bvm_slice *slices[] = {&m.stack, &m.frames, &m.chain, &m.slots, &m.saved_stack, &m.saved_frames, &m.ready, &m.finalize, &m.setup};
    const bvm_function functions[2] = {{4, 0, 0, {{0, 0, 0, 0}}}, {3, 2, 2, {{30, 31, 32, 1}, {40, 41, 42, 1}}}};
    const bvm_setup given = {5, 6, 7, 8, 9, {11, 12, 13, 14, 15, 16}, 1, 1, 2, functions};
    bvm_slice seen;
    size_t i;

    for (i = 0; i < 9; i++)
        slices[i]->words = room + i, slices[i]->length = i + 1;
    SAY(coro_new, 11, 12, 13, 14);
    SAY(coro_new_indirect, 11, 12, 13, 14);
    SAY(spawn, 11, 12, 13, 14);
    SAY(yield, 11, 12, 13);
    SAY(yield_kv, 11, 12, 13, 14);
    SAY(await, 11, 12, 13);
    SAY(resume, 11, 12, 13, 14);
    SAY(resume_throw, 11, 12, 13, 14);
    SAY(coro_close, 11, 12, 13, 14);
    SAY(coro_status, 11, 12, 13);
    SAY(coro_current, 11, 12);
    SAY(coro_key, 11, 12, 13);
    SAY(coro_result, 11, 12, 13);
    SAY(iter_next, 11, 12, 13, 14, 15);
    SAY(finish, BVM_RESULT_U64, 12);
    SAY(unwind, BVM_FAULT_THROW, 12);
    SAY(unwind_at, BVM_FAULT_THROW, 12, 14);
    SAY(spawn_task, 11);
    SAY(host_call, 11);
    SAY(host_entry, 11, 12);
    SAY(function_call, 11, 12, BVM_CONT_VALUE, 14);
    SAY(put_word, 11, 12);
    SAY(make_iterator, 11);
    SAY_BARE(take_outcome);
    SAY(hand_over, 11);
    SAY(grant, 11);
    SAY_BARE(stop_run);
    SAY(set_up, &given);
    seen = bvm_machine_look(&m, &f);
    wrong += seen.words != room + 3 || seen.length != 2;
    wrong += bvm_machine_sound(&m, &f) != 1;
#ifdef BVM_UNCHECKED
    /* a switch that the try did: nothing else is called, and the answer is that of a frame that goes on */
    {
        static const uint64_t goes_on[8] = {0, 0, 2, 0, 3, 0, 0, 0};
        bvm_answer on;

        memset(&on, 0, sizeof on);
        wrong += bvm_answer_read(&on, goes_on) != BVM_ACCEPTED || tries != 2;
        done = 1;
        wrong += bvm_machine_yield(&m, &f, &a, 11, 12, 13) != BVM_ACCEPTED || tried[0] != 3 || memcmp(&a, &on, sizeof on) != 0;
        memset(&a, 0, sizeof a);
        wrong += bvm_machine_resume(&m, &f, &a, 11, 12, 13, 14) != BVM_ACCEPTED || tried[0] != 6 || memcmp(&a, &on, sizeof on) != 0;
        wrong += tries != 4;
    }
#else
    wrong += tries != 0;
#endif
    return wrong != 0;
}
