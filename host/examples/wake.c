/* A script is put to sleep and woken, with what it held. */
#include <humdelzi.h>
#include <stdio.h>

int main(void)
{
    static uint64_t words[BVM_WORDS_OF(2)]; /* the machine stands in them */
    const bvm_function functions[2] = {{.registers = 3}, {.registers = 3}}; /* 0 is the caller, 1 the script */
    const bvm_setup setup = bvm_setup_of(functions, 2);
    const uint64_t own = bvm_int(55), setpoint = bvm_int(820);
    bvm_machine m;
    bvm_fuel fuel;
    bvm_answer a;
    bvm_slice top;

    if (bvm_machine_begin(&m, &fuel, &a, &setup, words, sizeof words / sizeof *words)
        || bvm_machine_grant(&m, &fuel, &a, 100)
        || bvm_machine_host_call(&m, &fuel, &a, 0)          /* a frame of the caller */
        || bvm_machine_put_word(&m, &fuel, &a, 2, own)      /* its own register 2 */
        || bvm_machine_coro_new(&m, &fuel, &a, 0, 0, 1, 0)  /* the script, to register 0 */
        || bvm_machine_resume(&m, &fuel, &a, 1, 1, 0, 2)    /* it runs */
        || bvm_machine_put_word(&m, &fuel, &a, 2, setpoint) /* and holds a setpoint in its register 2 */
        || bvm_machine_yield(&m, &fuel, &a, 0, 0, 2)        /* it sleeps */
        || bvm_machine_resume(&m, &fuel, &a, 2, 1, 0, 2))   /* it is woken */
        return fprintf(stderr, "wake: %d: %s\n", (int)a.number, bvm_fault_words(a.number)), 1;
    top = bvm_machine_look(&m, &fuel);
    printf("the caller holds %d, the woken script %d\n", (int)bvm_as_int(m.stack.words[2]), (int)bvm_as_int(top.words[2]));
    return top.length == 3 && top.words[2] == setpoint && m.stack.words[2] == own ? 0 : 1;
}
