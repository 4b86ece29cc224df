//! Calls with faults put in, each by itself and two at once; numbers, lists and elements for them.

/// A fault: the refusal number that it brings by itself, and what it changes in a call.
pub type Fault<T> = (u32, fn(&mut T));

/// Calls with the refusal number that each must get, 0 for one that is done.
pub type Expected<T> = Vec<(T, u32)>;

/// Modulus numbers that stand for no prime: neighbours of 1..4, the primes, numbers whose low byte or
/// low half is in 0..4, and the largest.
pub const NO_MODULUS: [u32; 15] = [
    0,
    5,
    6,
    13,
    255,
    256,
    257,
    260,
    65537,
    65540,
    2147483647,
    1 << 31,
    (1 << 31) + 1,
    (1 << 31) + 4,
    u32::MAX,
];

/// Each fault alone, and each two of unlike number together. The faults stand in the order of the
/// sheet's tests, so the earlier one is due. It is put in after the later one, so that a list is
/// damaged before it is cut.
pub fn alone_and_in_pairs<T: Clone>(base: &T, faults: &[Fault<T>]) -> Expected<T> {
    let mut calls = Vec::new();
    for (i, first) in faults.iter().enumerate() {
        calls.push((faulty(base, &[first]), first.0));
        for later in faults[i + 1..].iter().filter(|fault| fault.0 != first.0) {
            calls.push((faulty(base, &[later, first]), first.0));
        }
    }
    calls
}

/// Each fault alone.
pub fn alone<T: Clone>(base: &T, faults: &[Fault<T>]) -> Expected<T> {
    let calls = faults.iter().map(|fault| (faulty(base, &[fault]), fault.0));
    calls.collect()
}

/// A call with faults put in, one after another.
fn faulty<T: Clone>(base: &T, faults: &[&Fault<T>]) -> T {
    let mut call = base.clone();
    faults.iter().for_each(|fault| (fault.1)(&mut call));
    call
}

/// A list with a wrong length: empty, one short, one long, and twice as long.
pub fn wrong_lengths(list: &[u32]) -> Vec<Vec<u32>> {
    let short = list[..list.len() - 1].to_vec();
    let long = [list, &[0]].concat();
    vec![Vec::new(), short, long, list.repeat(2)]
}

/// A list with 0, 1, q - 1, q, 2^31 and 2^32 - 1 at its front and at its end, and with the number that
/// is due for such an element.
pub fn border_elements(list: &[u32], q: u32, number: u32) -> Expected<Vec<u32>> {
    let below = [0, 1, q - 1].map(|element| (element, 0));
    let others = [q, 1 << 31, u32::MAX].map(|element| (element, number));
    let mut lists = Vec::new();
    for at in [0, list.len() - 1] {
        for (element, due) in below.into_iter().chain(others) {
            let mut changed = list.to_vec();
            changed[at] = element;
            lists.push((changed, due));
        }
    }
    lists
}
