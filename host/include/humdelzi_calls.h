/* 01's calls, one inline function each, for humdelzi.h: include that file. Every function returns the answer's number (0: accepted) and
 * writes the answer, but for a look, which hands back the registers.
 *
 * An instruction (coro_new to iter_next) is given the pc at which it stands. All of them
 *   needs:   a frame (else 12); registers of it, from its base to the end of the stack (else 13); a unit of fuel (else 10).
 *   does:    first the charge: it takes the unit, or starts a cleanup that is due, and takes none (BVM_CASE_CLEANUP, 17 with nil).
 *   answers: a step; bvm_machine_raise raises what is raised.
 *   leaves:  with 12 or 13, all as it was; with 10, no more than a bank of 0 given up; else the charge stays done.
 */
#ifndef HUMDELZI_H
#error "include humdelzi.h"
#endif
#ifndef HUMDELZI_CALLS_H
#define HUMDELZI_CALLS_H

#define BVM_CALL(name, ...) BVM_MUST_USE static inline bvm_fault bvm_machine_##name(bvm_machine *m, bvm_fuel *f, bvm_answer *a __VA_ARGS__)

/* ---- the fourteen instructions */

/* CoroNew: a new coroutine of a function.
 *   needs:   a function; count registers after dst (13); memory, a slot and a row.
 *   does:    makes a Created coroutine whose first registers are the count words after dst, the others nil (all nil where there are more
 *            words than registers); its word comes to dst.
 *   answers: NEXT; 9 without memory, 14 without a slot or a row.
 *   leaves:  with 9 at its charge, the sequence number advanced. */
BVM_CALL(coro_new, , uint32_t pc, uint16_t dst, uint32_t function, uint8_t count) { return bvm_machine_call(m, f, a, 0, pc, dst, function, count, 0); }

/* CoroNewIndirect: a new coroutine of the function object in a register (bvm_function_object).
 *   needs:   a function object in callee, with count parameters; count registers after dst (13); memory, a slot and a row.
 *   does:    what CoroNew does; the object is the closure of its frame.
 *   answers: NEXT; 1 or 2 where callee holds no function object, 2 with another count; 9, 14 as CoroNew.
 *   leaves:  what CoroNew leaves. */
BVM_CALL(coro_new_indirect, , uint32_t pc, uint16_t dst, uint16_t callee, uint8_t count) { return bvm_machine_call(m, f, a, 1, pc, dst, callee, count, 0); }

/* Spawn: a new coroutine, handed to the hook.
 *   needs:   a hook; what CoroNewIndirect needs; a second unit of fuel; room for the hook's frame.
 *   does:    makes the coroutine, stores pc, and pushes a frame of the hook with its word in register 0; what the hook returns comes to dst.
 *   answers: FRAME; 8 without a hook; 1, 2, 9, 14 as CoroNewIndirect; BVM_CASE_UNPAID (10) without the second unit; 4 without room.
 *   leaves:  with that 10 or 4, the coroutine made, and pc not stored. */
BVM_CALL(spawn, , uint32_t pc, uint16_t dst, uint16_t callee, uint8_t count) { return bvm_machine_call(m, f, a, 2, pc, dst, callee, count, 0); }

/* Yield: suspends the innermost running coroutine with the next key.
 *   needs:   a running coroutine; its largest integer key below 2^63 - 1; memory for what it saves beyond its largest sizes so far.
 *   does:    stores pc and saves the coroutine's frames and registers; its driver gets the word in src; a word sent later comes to dst.
 *   answers: FRAME; 5 without a running coroutine, 7 without a next key, 9 without memory, 9 or 14 where a large key finds no room for its
 *            object; 6 to be raised in the driver's frame (UNWIND) where a Resume or a loop drives it and it is closing.
 *   leaves:  with 5, 7 or no room for the key, the charge alone; with 9 after that, pc stored and a key object that was made; with 6, the
 *            coroutine asleep. */
BVM_CALL(yield, , uint32_t pc, uint16_t dst, uint16_t src)
{
#ifdef BVM_UNCHECKED
    return bvm_try_yield_unchecked(BVM_SIX(m), m->machine, 25, f->words, 4, pc, dst, src) ? bvm_machine_goes_on(a) : bvm_machine_general(m, f, a, 3, pc, dst, src, 0);
#else
    return bvm_machine_call(m, f, a, 3, pc, dst, src, 0, 0);
#endif
}

/* YieldKv: suspends the innermost running coroutine with a key of its own.
 *   needs:   a running coroutine; memory for what it saves.
 *   does:    what Yield does, with the word in key as key; an integer above the largest key so far becomes the largest.
 *   answers: FRAME; 5, 9 and 6 as Yield.
 *   leaves:  with 5, the charge alone; with 9, pc stored; with 6, the coroutine asleep. */
BVM_CALL(yield_kv, , uint32_t pc, uint16_t dst, uint16_t src, uint16_t key) { return bvm_machine_call(m, f, a, 4, pc, dst, src, key, 0); }

/* Await: suspends the innermost running coroutine, which awaits a word.
 *   needs:   a running coroutine; memory for what it saves.
 *   does:    what Yield does, without a key: it is Awaiting then, and stays closing if it was.
 *   answers: FRAME; 5 and 9 as Yield; 2 to be raised in the frame of a loop (UNWIND), which cannot await.
 *   leaves:  with 5, the charge alone; with 9, pc stored; with 2, the coroutine asleep. */
BVM_CALL(await, , uint32_t pc, uint16_t dst, uint16_t src) { return bvm_machine_call(m, f, a, 5, pc, dst, src, 0, 0); }

/* Resume: enters a coroutine and sends it a word.
 *   needs:   a coroutine in coro that is Created, Yielded or Awaiting; room for its frames and registers within the limits.
 *   does:    stores pc and puts the coroutine's frames and registers on those of the caller. A sleeper gets the word in src in its waiting
 *            register, and its pc steps; a Created one gets neither. What it yields, awaits or returns comes to dst.
 *   answers: FRAME; 1 or 2 where coro holds no coroutine, 3 in another state, 4 without room.
 *   leaves:  raised, pc stored. */
BVM_CALL(resume, , uint32_t pc, uint16_t dst, uint16_t coro, uint16_t src)
{
#ifdef BVM_UNCHECKED
    return bvm_try_resume_unchecked(BVM_SIX(m), m->machine, 25, f->words, 4, pc, dst, coro, src) ? bvm_machine_goes_on(a) : bvm_machine_general(m, f, a, 6, pc, dst, coro, src);
#else
    return bvm_machine_call(m, f, a, 6, pc, dst, coro, src, 0);
#endif
}

/* ResumeThrow: enters a coroutine and raises a word in it.
 *   needs:   what Resume needs.
 *   does:    enters a sleeper as Resume does, and sends nothing. A Created one is not entered: it has Failed of the word.
 *   answers: 17 with the word in src, in the frame that was entered (UNWIND), or at the instruction (FAULT) of a Created one; 1, 2, 3, 4
 *            as Resume. It is never accepted.
 *   leaves:  with 17, that entry or that failure; with 3 or 4, pc stored. */
BVM_CALL(resume_throw, , uint32_t pc, uint16_t dst, uint16_t coro, uint16_t src) { return bvm_machine_call(m, f, a, 7, pc, dst, coro, src, 0); }

/* CoroClose: raises a signal in a coroutine, so that it may end.
 *   needs:   a coroutine in coro that is not Running; room as Resume.
 *   does:    enters a sleeper, marks it closing, and keeps the word in src as its signal. A Created one is Returned with nil. One that lets
 *            its own signal escape is Returned with nil too.
 *   answers: 17 with the word in src, in the frame that was entered (UNWIND); NEXT with nil in dst of one that is Created or over; 1, 2,
 *            3, 4 as Resume.
 *   leaves:  with 17, the entry; with 4, pc stored. */
BVM_CALL(coro_close, , uint32_t pc, uint16_t dst, uint16_t coro, uint16_t src) { return bvm_machine_call(m, f, a, 8, pc, dst, coro, src, 0); }

/* CoroStatus: the state of a coroutine.
 *   needs:   a coroutine in coro.
 *   does:    writes the state's code (bvm_state) to dst.
 *   answers: NEXT; 1 or 2 where coro holds no coroutine.
 *   leaves:  raised, the charge alone. */
BVM_CALL(coro_status, , uint32_t pc, uint16_t dst, uint16_t coro) { return bvm_machine_call(m, f, a, 9, pc, dst, coro, 0, 0); }

/* CoroCurrent: the innermost running coroutine.
 *   needs:   nothing more.
 *   does:    writes its word, or nil if none runs, to dst.
 *   answers: NEXT.
 *   leaves:  nothing else changed. */
BVM_CALL(coro_current, , uint32_t pc, uint16_t dst) { return bvm_machine_call(m, f, a, 10, pc, dst, 0, 0, 0); }

/* CoroKey: the key of a coroutine's last yield.
 *   needs:   a coroutine in coro.
 *   does:    writes the key, or nil before the first, to dst.
 *   answers: NEXT; 1 or 2 where coro holds no coroutine.
 *   leaves:  raised, the charge alone. */
BVM_CALL(coro_key, , uint32_t pc, uint16_t dst, uint16_t coro) { return bvm_machine_call(m, f, a, 11, pc, dst, coro, 0, 0); }

/* CoroResult: what a coroutine returned.
 *   needs:   a coroutine in coro that is Returned.
 *   does:    writes its result to dst.
 *   answers: NEXT; 1 or 2 where coro holds no coroutine, 3 in another state.
 *   leaves:  raised, the charge alone. */
BVM_CALL(coro_result, , uint32_t pc, uint16_t dst, uint16_t coro) { return bvm_machine_call(m, f, a, 12, pc, dst, coro, 0, 0); }

/* iter_next: the next turn of a loop over a coroutine.
 *   needs:   a coroutine in src, Created, Yielded or Returned; its iterator's word in iter; room as Resume.
 *   does:    enters the coroutine, sending nil. When it yields, the iterator gets the key, val the word and has 1, and the caller's pc
 *            steps; when it returns, the iterator is done and has is 0. Without an iterator in iter the turn is the same, and no key is kept.
 *   answers: FRAME; NEXT with 0 in has where the iterator is done or the coroutine Returned; 1 or 2 where src holds no coroutine, 2 if it
 *            is Awaiting, 3 in another state, 4 without room.
 *   leaves:  with 3 or 4, pc stored. */
BVM_CALL(iter_next, , uint32_t pc, uint16_t has, uint16_t iter, uint16_t val, uint16_t src) { return bvm_machine_call(m, f, a, 13, pc, has, iter, val, src); }

/* ---- finish, unwind, spawn_task */

/* finish: the top frame ends with a result.
 *   needs:   a kind of bvm_result (else 13), with the word or the integer's 64 bits; 0 for none. Without a frame it is handed back.
 *   does:    takes the frame away and hands the result to its continuation: to a register of the frame below, whose pc steps; to the host,
 *            from the frame of a host call, an integer as its bits; to the driver, from the body of a coroutine, which is Returned then.
 *   answers: BVM_CASE_RESUME, BVM_CASE_EXIT or BVM_CASE_EXIT_WORD; where an integer has to become a word: 7 above 2^63 - 1, 9 or 14
 *            without room for its object.
 *   leaves:  refused, the frame of a coroutine's body in place, any other gone. */
BVM_CALL(finish, , bvm_result kind, uint64_t value) { return bvm_machine_call(m, f, a, 14, (uint64_t)kind, value, 0, 0, 0); }

/* unwind: raises a fault, from the top frame down.
 *   needs:   a fault 1 to 10 with word 0 (any other word is 13), or BVM_FAULT_THROW with its word. Any other fault is 11, with any word.
 *   does:    makes an error object of a fault 1 to 8. The first handler of the top frame's function that covers its pc takes the word, for
 *            one unit of fuel; else the frame is left, and so on down. A coroutine that it leaves has Failed, or is Returned with nil where
 *            the word is its own close signal.
 *   answers: BVM_CASE_CAUGHT; BVM_CASE_STOPPED where the host or a cleanup drove the coroutine that was left, and where a close succeeded;
 *            17 with the word that nobody took; 9 and 10 as they were given; 9 or 14 without room for the error object; 10 without the
 *            unit.
 *   leaves:  with 11 or 13, all as it was; with 17 and without the unit, the frames above gone. */
BVM_CALL(unwind, , bvm_fault fault, uint64_t word) { return bvm_machine_call(m, f, a, 15, (uint64_t)fault, word, 0, 0, 0); }
/* the same, with a pc to store in the top frame first; it stays stored with 9 and 10 */
BVM_CALL(unwind_at, , bvm_fault fault, uint64_t word, uint32_t pc) { return bvm_machine_call(m, f, a, 15, (uint64_t)fault, word, 1, pc, 0); }

/* Raises what an instruction at pc answered, by unwind_at or unwind. An answer that raises nothing is handed back as it is: 0 with its
 * step NEXT or FRAME, or its refusal; and a 14, which no handler takes. After BVM_CASE_CAUGHT and BVM_CASE_STOPPED the program goes on at the pc of the frame on top. After
 * 10, and a grant: if the instruction answered 10, it is made again, at that pc. If it answered something else, a handler could not be
 * paid, and the same number and word are raised again by unwind. Keep them: the answer is written over. */
BVM_CALL(raise, , uint32_t pc)
{
    if (a->step == BVM_STEP_FAULT && a->number != BVM_FAULT_FULL) return bvm_machine_unwind_at(m, f, a, a->number, a->word, pc);
    if (a->step == BVM_STEP_UNWIND) return bvm_machine_unwind(m, f, a, a->number, a->word);
    return a->number;
}

/* spawn_task: makes a coroutine a task.
 *   needs:   the word of a coroutine.
 *   does:    appends it to the ready queue and marks it a task, if it is none yet and is Created, Yielded or Awaiting.
 *   answers: that word; 2 where it names no coroutine.
 *   leaves:  refused, all as it was. */
BVM_CALL(spawn_task, , uint64_t word) { return bvm_machine_call(m, f, a, 16, word, 0, 0, 0, 0); }

/* ---- the added calls */

/* Set-up: a fresh machine in the slices that m lends (bvm_machine_begin lends them too). The words that they held are not tested.
 *   needs:   a set-up that keeps its ranges; slices long enough for it.
 *   does:    makes a machine without a frame, whose slots hold the functions' objects, and an empty fuel record.
 *   answers: 0; 11 for any other.
 *   leaves:  refused, all as it was. */
BVM_CALL(set_up, , const bvm_setup *setup)
{
    uint64_t given[BVM_WORDS_SETUP(BVM_MOST_FUNCTIONS)], answer[8];
    const size_t length = bvm_setup_words(setup, given);
    bvm_set_up(BVM_NINE(m), m->machine, 25, f->words, 4, given, length, answer, 8);
    return bvm_answer_read(a, answer);
}

/* Host call: a frame of a function, on an empty stack.
 *   needs:   no frame; a function; room for its registers.
 *   does:    pushes its frame: pc 0, all registers nil, a nil closure.
 *   answers: 0; 15 while a frame stands, 13 without such a function, 4 without room.
 *   leaves:  refused, all as it was. */
BVM_CALL(host_call, , uint32_t function) { return bvm_machine_call(m, f, a, 17, function, 0, 0, 0, 0); }

/* Host entry: enters a coroutine that the host drives, on an empty stack.
 *   needs:   no frame; the word of a coroutine that is Created, Yielded or Awaiting; room for what it saved.
 *   does:    enters it; a sleeper gets the word in its waiting register, and its pc steps. What it does then is the outcome.
 *   answers: 0; 15 while a frame stands; 1 or 2 where coro names no coroutine, 3 in another state, 4 without room.
 *   leaves:  refused, all as it was. */
BVM_CALL(host_entry, , uint64_t coro, uint64_t word) { return bvm_machine_call(m, f, a, 18, coro, word, 0, 0, 0); }

/* Function call: a frame of a function on the top frame.
 *   needs:   a frame; a function; a continuation WRITE, DYN or VALUE of a register of the top frame, or DISCARD with reg 0; room.
 *   does:    stores pc in the top frame and pushes the function's: pc 0, all registers nil, a nil closure.
 *   answers: 0; 12 without a frame, 13 for another function or continuation, 4 without room.
 *   leaves:  refused, all as it was. */
BVM_CALL(function_call, , uint32_t pc, uint32_t function, bvm_cont cont, uint16_t reg) { return bvm_machine_call(m, f, a, 19, pc, function, (uint64_t)cont, reg, 0); }

/* Put word: one register of the top frame.
 *   needs:   a frame, and that register of it.
 *   does:    writes the word there.
 *   answers: 0; 12 without a frame, 13 for another register.
 *   leaves:  refused, all as it was. */
BVM_CALL(put_word, , uint16_t reg, uint64_t word) { return bvm_machine_call(m, f, a, 20, reg, word, 0, 0, 0); }

/* Make iterator: the object of a loop over a coroutine.
 *   needs:   the word of a coroutine; memory and a slot.
 *   does:    makes an iterator over it, not done, without a key.
 *   answers: the iterator's word; 1 or 2 where it names no coroutine, 9 without memory, 14 without a slot.
 *   leaves:  refused, all as it was. */
BVM_CALL(make_iterator, , uint64_t word) { return bvm_machine_call(m, f, a, 21, word, 0, 0, 0, 0); }

/* Take outcome: what the coroutine that the host drove did.
 *   needs:   nothing.
 *   does:    reads the outcome and clears it.
 *   answers: BVM_CASE_TOOK, with the outcome or BVM_OUTCOME_NONE.
 *   leaves:  nothing else changed. */
BVM_CALL(take_outcome, ) { return bvm_machine_call(m, f, a, 22, 0, 0, 0, 0, 0); }

/* Hand over: a sleeping coroutine is to be cleaned up.
 *   needs:   the word of a coroutine that is Yielded or Awaiting and was not handed over before.
 *   does:    appends it to the cleanup queue and marks it. If no cleanup runs, what fuel there is goes to the bank, and the next
 *            instruction's charge enters the first of the queue that still sleeps and fits, closing it with nil.
 *   answers: 0; 1 or 2 where it names no coroutine, 3 for any other.
 *   leaves:  refused, all as it was. */
BVM_CALL(hand_over, , uint64_t coro) { return bvm_machine_call(m, f, a, 23, coro, 0, 0, 0, 0); }

/* Grant: more fuel.
 *   needs:   a sum of at most 2^64 - 1.
 *   does:    adds the amount to the bank if there is one, else to what is left.
 *   answers: 0; 16 for a greater sum.
 *   leaves:  refused, all as it was. */
BVM_CALL(grant, , uint64_t amount) { return bvm_machine_call(m, f, a, 24, amount, 0, 0, 0, 0); }

/* Stop run: the run is over.
 *   needs:   nothing.
 *   does:    ends every running coroutine as Failed, and takes all frames and the stack away. Sleepers stay.
 *   answers: 0.
 *   leaves:  no frame. */
BVM_CALL(stop_run, ) { return bvm_machine_call(m, f, a, 25, 0, 0, 0, 0, 0); }

/* Look: the top frame's registers.
 *   needs:   nothing.
 *   does:    nothing.
 *   answers: the registers as part of the stack's words; without a frame, or on 11, an empty part.
 *   leaves:  all as it was. */
static inline bvm_slice bvm_machine_look(const bvm_machine *m, const bvm_fuel *f)
{
    uint64_t span[2] = {0, 0};
    bvm_slice part;
    bvm_look(BVM_NINE(m), m->machine, 25, f->words, 4, span, 2);
    part.words = m->stack.words + span[0];
    part.length = (size_t)(span[1] - span[0]);
    return part;
}

/* The test by itself: 1 if the machine is well-formed, else 0. */
static inline int bvm_machine_sound(const bvm_machine *m, const bvm_fuel *f) { return bvm_sound(BVM_NINE(m), m->machine, 25, f->words, 4) == 1; }

/* ---- a machine in one block of words */

/* the words that a set-up needs; 0 for one that breaks its ranges, or has no functions where it counts some, so that they cannot be told */
static inline size_t bvm_setup_room(const bvm_setup *s)
{
    uint64_t i, width = s->stack;
    if (s->functions > 0 && s->function == NULL) return 0;
    if (s->depth > 128 || s->stack > 1024 || s->rows > 64 || s->slots > 4096 || s->functions > BVM_MOST_FUNCTIONS) return 0;
    for (i = 0; i < s->functions; i++)
        if (s->function[i].registers > width) width = s->function[i].registers <= 256 ? s->function[i].registers : 256;
    return (size_t)BVM_WORDS(s->depth, s->stack, s->rows, s->slots, s->functions, width);
}

static inline uint64_t *bvm_lend_part(bvm_slice *part, uint64_t *from, uint64_t length)
{
    part->words = from, part->length = (size_t)length;
    return from + length;
}

/* no machine, and no fuel: a tested call with it answers 11 */
static inline void bvm_machine_lend_nothing(bvm_machine *m, bvm_fuel *f)
{
    bvm_slice *const parts[9] = {&m->stack, &m->frames, &m->chain, &m->slots, &m->saved_stack, &m->saved_frames, &m->ready, &m->finalize, &m->setup};
    size_t i;
    for (i = 0; i < 9; i++) bvm_lend_part(parts[i], m->machine, 0);
    for (i = 0; i < 25; i++) m->machine[i] = 0;
    for (i = 0; i < 4; i++) f->words[i] = 0;
}

/* The set-up in a block of words that the host lends for as long as the machine is used.
 *   needs:   a set-up that keeps its ranges; at least bvm_setup_room(setup) words.
 *   does:    cuts the block into the nine slices, then what set_up does.
 *   answers: 0; 11 for any other, as set_up. bvm_setup_room(setup) tells whether the block is too short.
 *   leaves:  refused, the block as it was; m is no machine then, and the fuel is empty: a tested call with them answers 11. */
BVM_CALL(begin, , const bvm_setup *setup, uint64_t *words, size_t length)
{
    const size_t room = bvm_setup_room(setup);
    const uint64_t depth = setup->depth, rows = setup->rows, queue = BVM_WORDS_QUEUE(setup->slots);
    const uint64_t refused[8] = {BVM_FAULT_UNSOUND, 0, 0, 0, BVM_CASE_REFUSED, 0, 0, 0};
    bvm_machine_lend_nothing(m, f);
    if (room == 0 || words == NULL || length < room) return bvm_answer_read(a, refused);
    words = bvm_lend_part(&m->stack, words, setup->stack);
    words = bvm_lend_part(&m->frames, words, BVM_WORDS_FRAMES(depth));
    words = bvm_lend_part(&m->chain, words, BVM_WORDS_CHAIN(depth));
    words = bvm_lend_part(&m->slots, words, BVM_WORDS_SLOTS(setup->slots));
    words = bvm_lend_part(&m->saved_frames, words, BVM_WORDS_SAVED_FRAMES(rows, depth));
    words = bvm_lend_part(&m->ready, words, queue);
    words = bvm_lend_part(&m->finalize, words, queue);
    words = bvm_lend_part(&m->setup, words, BVM_WORDS_SETUP(setup->functions));
    /* the rows' registers are what is left of the room */
    bvm_lend_part(&m->saved_stack, words, room - BVM_WORDS(depth, setup->stack, rows, setup->slots, setup->functions, 0));
    if (bvm_machine_set_up(m, f, a, setup) != BVM_ACCEPTED) bvm_machine_lend_nothing(m, f);
    return a->number;
}

#endif
