/* A script put to sleep and woken at another height, through humdelzi.h: every step's answer and the words are checked. */
#include <stdio.h>
#include <string.h>
#include "humdelzi.h"

enum { DEPTH = 8, STACK = 32, ROWS = 2, SLOTS = 8, FUNCTIONS = 3, WORDS = BVM_WORDS(DEPTH, STACK, ROWS, SLOTS, FUNCTIONS, STACK) };

static uint64_t words[WORDS];

static int checks, failures;

static void check(int holds, const char *what)
{
    checks++;
    if (!holds) {
        failures++;
        printf("FAILED: %s\n", what);
    }
}
#define CHECK(x) check((x), #x)

int main(void)
{
    bvm_machine m;
    bvm_fuel f;
    bvm_answer a;
    /* a caller of 4 registers, a script of 6 with a handler for its pc 5, a function of 5 */
    bvm_function functions[FUNCTIONS] = {{4, 0, 0, {{0, 0, 0, 0}}}, {6, 0, 1, {{5, 6, 9, 5}}}, {5, 0, 0, {{0, 0, 0, 0}}}};
    bvm_setup setup = bvm_setup_of(functions, FUNCTIONS);
    uint64_t held[6], *stack;
    size_t i;
    bvm_slice top;

    /* a set-up is refused, and changes nothing; a block of words that is too short too */
    words[3] = 77;
    CHECK(bvm_setup_room(&setup) == BVM_WORDS_OF(FUNCTIONS));
    setup.depth = 129;
    CHECK(bvm_machine_begin(&m, &f, &a, &setup, words, WORDS) == BVM_FAULT_UNSOUND && a.which == BVM_CASE_REFUSED);
    setup.depth = DEPTH, setup.stack = STACK, setup.rows = ROWS, setup.slots = SLOTS;
    CHECK(bvm_setup_room(&setup) == WORDS);
    CHECK(bvm_machine_begin(&m, &f, &a, &setup, words, WORDS - 1) == BVM_FAULT_UNSOUND);
    setup.functions = 33;
    CHECK(bvm_machine_begin(&m, &f, &a, &setup, words, WORDS) == BVM_FAULT_UNSOUND);
    setup.functions = FUNCTIONS, setup.has_hook = 1, setup.hook = 3;
    CHECK(bvm_machine_begin(&m, &f, &a, &setup, words, WORDS) == BVM_FAULT_UNSOUND);
    setup.has_hook = 0;
    CHECK(words[3] == 77);
    /* it is no machine then: nothing is lent, and a tested call says so; nor is one without a block, or without the functions that it counts */
    CHECK(m.stack.length == 0 && m.setup.length == 0 && m.machine[13] == 0 && !bvm_machine_sound(&m, &f));
#ifndef BVM_UNCHECKED
    CHECK(bvm_machine_grant(&m, &f, &a, 1) == BVM_FAULT_UNSOUND && bvm_machine_look(&m, &f).length == 0);
#endif
    CHECK(bvm_machine_begin(&m, &f, &a, &setup, NULL, WORDS) == BVM_FAULT_UNSOUND);
    setup.function = NULL;
    CHECK(bvm_setup_room(&setup) == 0 && bvm_machine_begin(&m, &f, &a, &setup, words, WORDS) == BVM_FAULT_UNSOUND);
    setup.function = functions;
    CHECK(bvm_machine_begin(&m, &f, &a, &setup, words, WORDS) == 0);
    stack = m.stack.words;
    CHECK(words[3] == 0 && bvm_fuel_left(&f) == 0 && bvm_machine_sound(&m, &f));
    CHECK(m.machine[13] == DEPTH && m.saved_stack.words + m.saved_stack.length == words + WORDS);
    setup.functions = 33;
    CHECK(bvm_machine_set_up(&m, &f, &a, &setup) == BVM_FAULT_UNSOUND && bvm_machine_sound(&m, &f));
    CHECK(bvm_machine_look(&m, &f).length == 0);
    CHECK(bvm_machine_coro_current(&m, &f, &a, 0, 0) == BVM_FAULT_NO_FRAME);

    /* the caller makes the script, and the script sleeps with its registers 1 to 5 full */
    CHECK(bvm_machine_grant(&m, &f, &a, 100) == 0 && bvm_fuel_left(&f) == 100);
    CHECK(bvm_machine_host_call(&m, &f, &a, 0) == 0);
    CHECK(bvm_machine_host_call(&m, &f, &a, 0) == BVM_FAULT_BUSY);
    CHECK(bvm_machine_coro_new(&m, &f, &a, 0, 0, 1, 0) == 0 && a.step == BVM_STEP_NEXT);
    CHECK(bvm_machine_resume(&m, &f, &a, 1, 1, 0, 2) == 0 && a.step == BVM_STEP_FRAME);
    for (i = 1; i < 6; i++)
        CHECK(bvm_machine_put_word(&m, &f, &a, (uint16_t)i, bvm_int(820 + (int64_t)i)) == 0);
    CHECK(bvm_machine_put_word(&m, &f, &a, 6, 0) == BVM_FAULT_BAD_OPERAND);
    top = bvm_machine_look(&m, &f);
    CHECK(top.words == stack + 4 && top.length == 6);
    memcpy(held, top.words, sizeof held);
    CHECK(bvm_machine_yield(&m, &f, &a, 5, 0, 1) == 0 && a.step == BVM_STEP_FRAME);
    top = bvm_machine_look(&m, &f);
    CHECK(top.words == stack && top.length == 4);
    CHECK(top.words[1] == bvm_int(821));
    CHECK(bvm_machine_coro_status(&m, &f, &a, 2, 3, 0) == 0 && top.words[3] == BVM_STATE_YIELDED);
    for (i = 4; i < STACK; i++)
        CHECK(stack[i] == 0);

    /* it is woken five words higher, inside a function call, with a word sent to its register 0 */
    CHECK(bvm_machine_function_call(&m, &f, &a, 3, 2, BVM_CONT_DISCARD, 0) == 0);
    CHECK(bvm_machine_put_word(&m, &f, &a, 0, stack[0]) == 0);
    CHECK(bvm_machine_put_word(&m, &f, &a, 2, bvm_int(-1)) == 0);
    CHECK(bvm_machine_resume(&m, &f, &a, 9, 1, 0, 2) == 0 && a.step == BVM_STEP_FRAME);
    top = bvm_machine_look(&m, &f);
    CHECK(top.words == stack + 9 && top.length == 6);
    CHECK(top.words[0] == bvm_int(-1));
    for (i = 1; i < 6; i++)
        CHECK(top.words[i] == held[i]);

    /* it returns; its caller gets the word */
    CHECK(bvm_machine_finish(&m, &f, &a, BVM_RESULT_WORD, top.words[2]) == 0 && a.which == BVM_CASE_RESUME);
    CHECK(stack[4 + 1] == held[2]);
    CHECK(bvm_machine_resume(&m, &f, &a, 10, 1, 0, 2) == BVM_FAULT_INVALID_CORO_STATE && a.step == BVM_STEP_FAULT);
    CHECK(bvm_machine_raise(&m, &f, &a, 10) == BVM_FAULT_THROW);
    CHECK(m.machine[1] == 0 && bvm_machine_sound(&m, &f));

    /* a second script sleeps and is handed over; another fuel record knows of it, and the next charge starts its cleanup */
    CHECK(bvm_machine_host_call(&m, &f, &a, 0) == 0);
    CHECK(bvm_machine_coro_new(&m, &f, &a, 0, 0, 1, 0) == 0);
    CHECK(bvm_machine_resume(&m, &f, &a, 1, 1, 0, 2) == 0);
    CHECK(bvm_machine_yield(&m, &f, &a, 5, 0, 1) == 0);
    CHECK(bvm_machine_hand_over(&m, &f, &a, stack[0]) == 0 && bvm_fuel_has_bank(&f) && bvm_fuel_left(&f) == 0);
    f = bvm_fuel_of(&m, 40);
    CHECK(bvm_fuel_has_bank(&f) && bvm_fuel_banked(&f) == 40 && bvm_fuel_cleanup_ready(&f) && bvm_machine_sound(&m, &f));
    CHECK(bvm_machine_coro_current(&m, &f, &a, 2, 3) == BVM_FAULT_THROW && a.which == BVM_CASE_CLEANUP && a.taken == 1);
    CHECK(bvm_machine_raise(&m, &f, &a, 2) == 0 && a.which == BVM_CASE_CAUGHT && m.frames.words[6 + 1] == 9);
    CHECK(bvm_machine_finish(&m, &f, &a, BVM_RESULT_NONE, 0) == 0 && a.which == BVM_CASE_RESUME);
    f = bvm_fuel_of(&m, 40);
    CHECK(!bvm_fuel_has_bank(&f) && bvm_fuel_left(&f) == 40 && bvm_machine_sound(&m, &f));
    CHECK(bvm_machine_coro_current(&m, &f, &a, 2, 3) == 0 && a.step == BVM_STEP_NEXT);
    CHECK(bvm_machine_raise(&m, &f, &a, 2) == 0 && a.step == BVM_STEP_NEXT);
    /* every row is held: 14, which is handed back and not raised */
    CHECK(bvm_machine_coro_new(&m, &f, &a, 3, 1, 1, 0) == 0 && bvm_machine_coro_new(&m, &f, &a, 4, 1, 1, 0) == 0);
    CHECK(bvm_machine_coro_new(&m, &f, &a, 5, 1, 1, 0) == BVM_FAULT_FULL && a.step == BVM_STEP_FAULT);
    CHECK(bvm_machine_raise(&m, &f, &a, 5) == BVM_FAULT_FULL && m.machine[1] == 1 && bvm_machine_sound(&m, &f));
    CHECK(bvm_machine_finish(&m, &f, &a, BVM_RESULT_I64, 5) == 0 && a.which == BVM_CASE_EXIT_WORD && a.word == 5);
    CHECK(bvm_as_int(bvm_int(-5)) == -5 && bvm_is_int(bvm_int(-5)) && !bvm_is_int(bvm_slot(5)));
    CHECK(strcmp(bvm_fault_words(BVM_FAULT_OUT_OF_FUEL), "bank and fuel both used up") == 0);

#ifndef BVM_UNCHECKED
    /* one word damaged: 11, nothing changed; put right, it goes on */
    stack[STACK - 1] = 1;
    CHECK(!bvm_machine_sound(&m, &f));
    CHECK(bvm_machine_call(&m, &f, &a, 17, 0, 0, 0, 0, 0) == BVM_FAULT_UNSOUND);
    stack[STACK - 1] = 0;
#endif
    CHECK(bvm_machine_host_call(&m, &f, &a, 0) == 0);

    printf("c: %d checks, %d failed\n", checks, failures);
    return failures != 0;
}
