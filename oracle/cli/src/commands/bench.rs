//! The original's speed and the library's, where they are linked.

use oracle::world::Costs;

/// The original's costs where it is linked.
pub(crate) fn costs() -> Result<Costs, String> {
    let mut costs = super::COSTS;
    super::with_original(|_, own| {
        costs = own;
        Ok(())
    })?;
    Ok(costs)
}

/// Of these measures, or of all.
pub(crate) fn bench(only: &[&str]) -> Result<(), String> {
    crate::bench::table(costs()?, |i| only.is_empty() || only.contains(&i.to_string().as_str()));
    #[cfg(not(library))]
    println!("\nskipped: the library is not linked (BVM_LIB is unset)");
    Ok(())
}
