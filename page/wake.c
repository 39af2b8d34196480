/* A script sleeps and is woken at another height, on the compiled library; prints the words at five moments, for the picture. */
#include <stdio.h>
#include <stdlib.h>

#include "humdelzi.h"

enum { DEPTH = 8, STACK = 32, ROWS = 2, SLOTS = 8, FUNCTIONS = 3, WORDS = BVM_WORDS(DEPTH, STACK, ROWS, SLOTS, FUNCTIONS, STACK) };

static uint64_t block[WORDS];
static bvm_machine m;
static bvm_fuel fuel;
static bvm_answer answer;

static void done(bvm_fault number)
{
    if (number != 0) {
        fprintf(stderr, "wake: %d: %s\n", (int)number, bvm_fault_words(number));
        exit(1);
    }
}

static void words(const char *name, const uint64_t *from, size_t count)
{
    printf("%s", name);
    for (size_t i = 0; i < count; i++)
        printf(" %llu", (unsigned long long)from[i]);
    printf("\n");
}

/* the stack, the frames and the running coroutines; and what the one coroutine has saved */
static void moment(const char *text)
{
    printf("moment %s\n", text);
    words("stack", m.stack.words, m.machine[0]);
    words("frames", m.frames.words, m.machine[1] * 6);
    words("chain", m.chain.words, m.machine[2] * 6);
    words("saved", m.saved_stack.words, 3);
    words("savedframe", m.saved_frames.words, 6);
}

int main(void)
{
    const bvm_function functions[FUNCTIONS] = {{4, 0, 0, {{0, 0, 0, 0}}}, {3, 1, 0, {{0, 0, 0, 0}}}, {5, 0, 0, {{0, 0, 0, 0}}}};
    bvm_setup setup = bvm_setup_of(functions, FUNCTIONS);

    setup.depth = DEPTH, setup.stack = STACK, setup.rows = ROWS, setup.slots = SLOTS, setup.memory = 4096;
    printf("function controller\nfunction script\nfunction survey\n");
    done(bvm_machine_begin(&m, &fuel, &answer, &setup, block, WORDS));
    done(bvm_machine_grant(&m, &fuel, &answer, 100));
    done(bvm_machine_host_call(&m, &fuel, &answer, 0));
    done(bvm_machine_put_word(&m, &fuel, &answer, 1, 70));
    done(bvm_machine_coro_new(&m, &fuel, &answer, 0, 0, 1, 1));
    done(bvm_machine_resume(&m, &fuel, &answer, 1, 2, 0, 1));
    done(bvm_machine_put_word(&m, &fuel, &answer, 1, 25));
    moment("The script works");
    done(bvm_machine_yield(&m, &fuel, &answer, 5, 2, 1));
    moment("It sleeps");
    done(bvm_machine_function_call(&m, &fuel, &answer, 2, 2, BVM_CONT_WRITE, 3));
    done(bvm_machine_put_word(&m, &fuel, &answer, 0, m.stack.words[0]));
    done(bvm_machine_put_word(&m, &fuel, &answer, 1, 72));
    moment("The survey is called");
    done(bvm_machine_resume(&m, &fuel, &answer, 3, 2, 0, 1));
    moment("The script is woken");
    done(bvm_machine_yield(&m, &fuel, &answer, 7, 1, 2));
    moment("It yields again");
    return 0;
}
