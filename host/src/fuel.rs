//! The fuel record.

use core::fmt;

use crate::ffi::Record;
use crate::Machine;

/// The fuel record. It is the host's, and each call is lent it; a grant
/// rewrites it there.
///
/// # One record, from the set-up on
///
/// The record also tells that a cleanup is due: a hand over sets what is left
/// aside (in the *bank*) and marks the record, and the next instruction's charge
/// finds the mark. A host that went on with a blank record after a hand over
/// would lose the mark, and the cleanup would wait until something marks the
/// record again, such as another hand over. So
/// there is no blank record to be had: a record comes from the set-up of a
/// machine, from its words, or from [`Machine::fuel`], which marks it as the
/// machine's cleanup queue asks; and a record is not copied alone (a machine and
/// its record are, by [`Machine::into_words`] and [`Machine::from_words`]). Lend a
/// machine its own record, and not another machine's: that is safe, and every
/// call answers as defined, but the other's mark says nothing about this one's
/// queue.
#[derive(PartialEq, Eq)]
pub struct Fuel(pub(crate) Record);

impl Fuel {
    /// The units left.
    #[must_use]
    pub fn left(&self) -> u64 {
        self.0.words()[0]
    }

    /// The units in the bank, where they are set aside while a cleanup is due.
    /// They are spent as the others once it has begun.
    #[must_use]
    pub fn banked(&self) -> Option<u64> {
        let [_, bank, amount, _] = *self.0.words();
        (bank == 1).then_some(amount)
    }

    /// Whether a cleanup is due: the next instruction's charge starts it.
    #[must_use]
    pub fn cleanup_ready(&self) -> bool {
        self.0.words()[3] == 1
    }
}

impl fmt::Debug for Fuel {
    fn fmt(&self, f: &mut fmt::Formatter<'_>) -> fmt::Result {
        f.debug_struct("Fuel")
            .field("left", &self.left())
            .field("banked", &self.banked())
            .field("cleanup_ready", &self.cleanup_ready())
            .finish()
    }
}

impl Machine {
    /// A record of its own with an amount, for this machine: marked, and the
    /// amount in the bank, where its cleanup queue has somebody and no cleanup
    /// runs.
    ///
    /// ```
    /// # use humdelzi::{Function, FunctionId, Pc, Reg, Setup, StepError, Word};
    /// # let (mut m, mut fuel) = Setup::new().function(Function::new(2)).machine()?;
    /// # m.grant(&mut fuel, 9)?;
    /// # m.host_call(&mut fuel, FunctionId(0))?;
    /// # let _ = m.coro_new(&mut fuel, Pc(0), Reg(0), FunctionId(0), 0)?;
    /// # let _ = m.resume(&mut fuel, Pc(1), Reg(1), Reg(0), Reg(1))?;
    /// # let _ = m.yield_(&mut fuel, Pc(0), Reg(0), Reg(0))?;
    /// # let sleeper = m.register(Reg(0)).unwrap();
    /// m.hand_over(&mut fuel, sleeper)?;
    /// let mut other = m.fuel(50);
    /// assert!(other.cleanup_ready());
    /// assert_eq!(other.banked(), Some(50));
    /// let begun = m.coro_current(&mut other, Pc(2), Reg(1)).unwrap_err();
    /// assert_eq!(begun, StepError::Cleanup { taken: 1 });
    /// # Ok::<(), Box<dyn std::error::Error>>(())
    /// ```
    #[must_use]
    pub fn fuel(&self, amount: u64) -> Fuel {
        let due = !self.cleaning() && !self.cleanup_queue().is_empty();
        Fuel(Record::of(amount, due))
    }
}
