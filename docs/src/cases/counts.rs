//! How many cases there are of each kind, held to floors so that no generator of cases is lost unseen.

use std::collections::BTreeMap;

/// The cases of each kind of call and refusal number, 0 for a call that is done.
pub type Counts = BTreeMap<(&'static str, u32), u32>;

/// For each kind of call the numbers that it can give, each with the least count of its cases.
pub type Floors = [(&'static str, &'static [(u32, u32)])];

/// Prints the counts. Panics unless their kinds and numbers are those of the floors, and each count
/// is at least its floor.
pub fn hold(counts: &Counts, floors: &Floors) {
    for ((name, number), count) in counts {
        println!("{name}, {number}: {count}");
    }
    println!("cases: {}", counts.values().sum::<u32>());
    let mut least = Counts::new();
    for (name, numbers) in floors {
        least.extend(
            numbers
                .iter()
                .map(|&(number, count)| ((*name, number), count)),
        );
    }
    assert!(counts.keys().eq(least.keys()), "other kinds or numbers");
    for (kind, count) in least {
        assert!(counts[&kind] >= count, "{kind:?}: not {count} cases");
    }
}
