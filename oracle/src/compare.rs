//! Two engines side by side over one sequence.

use crate::call::{Answer, Call};
use crate::engine::Engine;
use crate::generate::Sequence;
use crate::layout;
use crate::sound::sound;
use crate::world::World;

/// One call with all that it found and left.
pub struct Made<'a> {
    pub before: &'a World,
    pub call: &'a Call,
    pub answer: &'a Answer,
    pub after: &'a World,
}

/// A call on which the engines differ, or that left an unsound state: the
/// state before it and the call are the smallest input.
pub struct Finding {
    pub what: String,
    pub before: World,
    pub call: Call,
    pub left: (Answer, World),
    pub right: (Answer, World),
}

impl Finding {
    /// Lines for `oracle run`, with what each side gave.
    #[must_use]
    pub fn text(&self) -> String {
        let side = |name: &str, (a, w): &(Answer, World)| {
            format!(
                "# {name}: {}\n# {name}: state {}\n",
                layout::text(a, layout::answer),
                layout::text(w, layout::world)
            )
        };
        format!(
            "# {}\nload {}\n{}\n{}{}",
            self.what,
            layout::text(&self.before, layout::world),
            layout::text(&self.call, layout::call),
            side("original", &self.left),
            side("second", &self.right),
        )
    }
}

/// Runs a sequence on both, showing each call to `see`.
pub fn compare(
    left: &mut dyn Engine,
    right: &mut dyn Engine,
    sequence: &Sequence,
    mut see: impl FnMut(Made),
) -> Result<(), Box<Finding>> {
    left.load(&sequence.start);
    right.load(&sequence.start);
    let mut before = sequence.start.clone();
    for call in &sequence.calls {
        let (a, b) = (left.call(call), right.call(call));
        let (after, other) = (left.world(), right.world());
        let what = if a != b {
            "the answers differ".into()
        } else if after != other {
            "the states differ".into()
        } else if let Err(rule) = sound(&after) {
            format!("no longer sound: {rule}")
        } else {
            String::new()
        };
        if !what.is_empty() {
            return Err(Box::new(Finding {
                what,
                before,
                call: call.clone(),
                left: (a, after),
                right: (b, other),
            }));
        }
        see(Made { before: &before, call, answer: &a, after: &after });
        before = after;
    }
    Ok(())
}
