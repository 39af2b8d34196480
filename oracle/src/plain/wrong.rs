//! Wrong engines: each breaks one sentence of 01.

macro_rules! wrongs {
    ($($name:ident: $sentence:literal,)*) => {
        /// One way of being wrong.
        #[derive(Clone, Copy, PartialEq, Eq, Debug)]
        pub enum Wrong {
            $($name,)*
        }

        impl Wrong {
            /// Every wrong engine with the sentence that it breaks.
            pub const ALL: &'static [(Wrong, &'static str)] = &[
                $((Wrong::$name, $sentence),)*
            ];
        }
    };
}

wrongs! {
    // Mistakes to keep out.
    SavedRegistersChargedTwice: "Charging a saved size twice (registers).",
    SavedFramesChargedTwice: "Charging a saved size twice (frames).",
    HasBeforeVal: "Writing `has` before `val`.",
    PcBeforeFive: "Storing pc before Yield's 5.",
    PcBeforeSeven: "Storing pc before Yield's 7.",
    // Which engine would sneak past?
    TenBeforeTheBank: "One answering 10 before trying: 10 is given exactly if bank and fuel are both used up.",
    NineBeforeTrying: "One answering 9 before trying: the number moves before creation's second charge.",
    MovesOnlyFirst: "Moving rows at the first entry and later only changing states.",
    InventsTheCount: "Inventing the number of queue words.",
    DoesNothing: "Doing nothing.",
    ConstantAnswer: "With a constant answer.",
    AlwaysRefuses: "Always refusing.",
    // Gate.
    LastRegisterRefused: "The last register passes.",
    EmptyWindowRefused: "The argument window lies between base and stack's end (a window that ends there passes).",
    // Resume.
    DepthEqualityRefused: "Frames plus saved frames above the depth limit: 4; equality passes.",
    StackEqualityRefused: "Stack plus saved registers above the stack limit: 4; equality passes.",
    DepthNotTested: "Frames plus saved frames above the depth limit (4).",
    StackNotTested: "Stack plus saved registers above the stack limit (4).",
    BasesNotRaised: "It adds the old stack height to every base.",
    ResumeStoresPcLate: "Resume stores pc in the top frame, then `coro_enter`.",
    PcSaturates: "Its pc steps by 1, wrapping at 2^32.",
    FreshTakesTheWord: "A Created one ignores the sent word.",
    ThrowStepsPc: "A throw is raised at the suspension point: no register, no step.",
    SignalIsNil: "A closing coroutine's own signal is the word that CoroClose was given.",
    // Yield, YieldKv, Await.
    KeysStartAtOne: "The largest key's start is -1: the first key is 0.",
    LargestFollowsEveryKey: "YieldKv raises the largest if the key is a greater integer.",
    IntObjectNoKey: "An integer key may be an integer object.",
    BasesNotLowered: "Saved frames have their bases from the body's base.",
    EntryKeepsSizes: "The largest saved sizes so far: what is saved is such a size.",
    KeyObjectTakenBack: "A key object made before that 9 stays.",
    LoopAwaitRefusedEarly: "An Await there is 2, after suspending.",
    // Delivery.
    IteratorKeyStays: "Iterator driver: iterator key, `val` register, then `has` = 1 and pc step.",
    SixToTheHost: "A yield while closing answers 6 to a Resume or iterator driver.",
    AwaitClearsClosing: "An Await leaves closing set.",
    YieldKeepsClosing: "A yield while closing clears closing.",
    // Ending.
    OwnSignalFails: "A closing coroutine that lets its own signal escape is Returned with nil.",
    AnyEscapeCloses: "Any other escape makes it Failed.",
    CleanupErrorsGoOn: "An error that escapes a cleanup stops there.",
    LastHandlerWins: "The first in program order with start <= pc < end.",
    HandlerEndIncluded: "A handler covers start <= pc < end.",
    HandlersAreFree: "Taking one costs one unit.",
    ExitAlwaysHasAWord: "`finish` answers exit, with its word or none.",
    VoidWritesNil: "A void result leaves a Write register as it was.",
    LargeU64Wraps: "A u64 above 2^63 - 1 gives 7.",
    UnwindDropsPcOfTraps: "`unwind` may be given a pc to store in the top frame first (9 and 10 too).",
    FinishedKeepsSizes: "A finished one has 0 (largest saved sizes).",
    FinishedKeepsRow: "A finished coroutine's row is free again.",
    // Cleanups and fuel.
    CleanupTakesAUnit: "A charge that starts a cleanup takes no unit.",
    PcOnlyIfCleanupStarts: "It stores pc first, even if no cleanup then starts.",
    OneQueueWordATime: "A finished or refused queue entry is passed over for the next.",
    CleanupsNest: "No cleanup is ready while one runs.",
    NeverArms: "While a cleanup is ready the fuel is banked.",
    // Added calls.
    GrantPassesTheBank: "Grant adds to the bank if there is one, else to fuel.",
    HandedOverTwice: "Hand over: a coroutine not handed over before.",
    OutcomeStays: "Take outcome reads and clears it.",
    StopKeepsOutcome: "Stop run: `abort_coros` clears the outcome.",
    CallStoresPcOnRefusal: "Function call: pc stored only if accepted.",
    TaskQueuedTwice: "`spawn_task` queues a coroutine that is no task yet.",
    SpawnTaskTellsNil: "`spawn_task` gives 2 for both (nil and a wrong kind).",
    // Leaves.
    TagIgnored: "A lookup needs a filled slot with an equal tag.",
    DeadReferenceIsTwo: "`not_a`: 1 for nil or a reference that finds no object.",
    InlineOneMore: "Inline integers end at 2^47 - 1.",
    MemoryWraps: "Memory sums stop at 2^64 - 1.",
    MemoryEqualityRefused: "Memory up to its limit may be used.",
    SlotBeforeMemory: "14 is tested right after memory.",
    SequenceMovesBack: "Creation's second 9: the number has moved.",
    SequenceSaturates: "It advances the 64-bit sequence number, wrapping.",
    SurplusArgumentsCut: "More arguments than registers: all registers 0.",
    HighestRow: "A new coroutine takes the lowest free row.",
    ClosureForgotten: "An indirect creation's frame holds the callee's word as its closure.",
    // Instructions.
    HookTestedLate: "Spawn without a hook (8) makes nothing.",
    SpawnTakesOneUnit: "Spawn charges a second unit for its hook.",
    SpawnStoresPcEarly: "Spawn's 4 leaves pc as it was.",
    FailedHasAResult: "CoroResult of a coroutine that is not Returned: 3.",
    DoneBeforeKind: "`iter_next` tests the source's kind before done.",
    LoopWakesAwaiting: "`iter_next` of an Awaiting source: 2.",
    // Rules of PEP 342 that differ.
    FreshRefusesAWord: "PEP 342 refuses a sent value on a fresh generator; here it is ignored.",
    CloseDropsTheValue: "PEP 342's close drops a returned value; the Rust delivers it.",
    ClosedRaisesTheThrown: "PEP 342's throw into a closed generator raises the thrown thing; here 3.",
}
