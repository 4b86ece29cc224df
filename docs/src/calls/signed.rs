//! Cases of signed reading and of its way back: the ends of each range with their neighbours, whole
//! ranges, random ones, and refused ones.

use crate::cases::faults::{Expected, NO_MODULUS};
use crate::sheet::plan::primes;
use crate::sheet::random::Random;
use crate::sheet::signed::{half, SignedReading, WayBack};

/// Up to which prime there is a case for each element.
const WHOLE: u32 = 257;

/// All cases of signed reading with the refusal numbers that are due.
pub fn readings(random: &mut Random) -> Expected<SignedReading> {
    let groups = [
        over_moduli(element_borders),
        over_moduli(|q| match q <= WHOLE {
            true => all(0..q, 0),
            false => random_elements(random, q),
        }),
        elements_of_no_modulus(),
    ];
    let call = |(modulus, element, due)| (SignedReading { modulus, element }, due);
    groups.concat().into_iter().map(call).collect()
}

/// All cases of the way back with the refusal numbers that are due.
pub fn ways_back(random: &mut Random) -> Expected<WayBack> {
    let groups = [
        over_moduli(value_borders),
        over_moduli(far_values),
        over_moduli(|q| match q <= WHOLE {
            true => all(range(q), 0),
            false => random_values(random, q),
        }),
        values_of_no_modulus(),
    ];
    let call = |(modulus, value, due)| (WayBack { modulus, value }, due);
    groups.concat().into_iter().map(call).collect()
}

/// Inputs for each modulus number, made from its prime.
fn over_moduli<T>(mut made: impl FnMut(u32) -> Expected<T>) -> Vec<(u32, T, u32)> {
    let mut inputs = Vec::new();
    for (modulus, q) in primes() {
        let list = made(q).into_iter();
        inputs.extend(list.map(|(input, due)| (modulus, input, due)));
    }
    inputs
}

/// Inputs that all get one number.
fn all<T>(inputs: impl IntoIterator<Item = T>, due: u32) -> Expected<T> {
    inputs.into_iter().map(|input| (input, due)).collect()
}

/// The range of signed values.
fn range(q: u32) -> std::ops::RangeInclusive<i64> {
    let end = i64::from(half(q));
    -end..=end
}

/// The elements about both ends of the range, about 0 and q, the ends of 32 bits, and the words
/// that stand for negative numbers.
fn element_borders(q: u32) -> Expected<u32> {
    let h = half(q);
    let fit = [0, 1, h - 1, h, h + 1, h + 2, q - 2, q - 1];
    let near = [q, q + 1, q + h, q + h + 1, 2 * q - 1, 2 * q, 2 * q + 1];
    let large = [i32::MAX as u32, 1 << 31, (1 << 31) + 1];
    let largest = [q, h + 1, h, 2, 1].map(|size| size.wrapping_neg());
    let mut cases = all(fit, 0);
    cases.extend(all([&near[..], &large, &largest].concat(), 14));
    cases
}

/// The values about both ends of the range, about 0 and about q and -q.
fn value_borders(q: u32) -> Expected<i64> {
    let [h, q] = [half(q), q].map(i64::from);
    let fit = [0, 1, h - 1, h];
    let outside = [h + 1, h + 2, q - 1, q, q + 1, q + h, q + h + 1, 2 * q];
    let mut cases = all(fit, 0);
    cases.extend(all(fit.map(|value| -value), 0));
    cases.extend(all(outside, 25));
    cases.extend(all(outside.map(|value| -value), 25));
    cases
}

/// Powers of two with their neighbours, most of them far outside the range, the ends of 64 bits, and
/// values of which a narrower word would be in the range.
fn far_values(q: u32) -> Expected<i64> {
    let h = i64::from(half(q));
    let mut cases = Vec::new();
    for power in [16, 30, 31, 32, 48, 62] {
        for size in (1 << power) - 1..=(1 << power) + 1 {
            cases.extend(all([size, -size], if size > h { 25 } else { 0 }));
        }
    }
    let mut values = vec![i64::MIN, i64::MIN + 1, i64::MAX - 1, i64::MAX];
    for value in [-h, -1, 0, 1, h] {
        let moved = [1 << 32, -1 << 32, 1 << 62, i64::MIN];
        values.extend(moved.map(|far| value.wrapping_add(far)));
    }
    cases.extend(all(values, 25));
    cases
}

/// Random elements below q, and random words that are not.
fn random_elements(random: &mut Random, q: u32) -> Expected<u32> {
    let mut cases = all(random.elements(300, q), 0);
    cases.extend(all((0..100).map(|_| random.within(q, u32::MAX)), 14));
    cases
}

/// Random values of the range, and random ones of all sizes outside it.
fn random_values(random: &mut Random, q: u32) -> Expected<i64> {
    let low = *range(q).start();
    let fit = random.elements(300, q).into_iter().map(i64::from);
    let mut cases = all(fit.map(|element| low + element), 0);
    let drawn = (0..150).map(|_| random.draw() as i64 >> random.within(0, 46));
    cases.extend(all(drawn.filter(|value| !range(q).contains(value)), 25));
    cases
}

/// No modulus, with elements of each field and with words of none, which 14 would refuse.
fn elements_of_no_modulus() -> Vec<(u32, u32, u32)> {
    #[rustfmt::skip]
    let elements = [
        0, 6, 7, 12, 13, 128, 257, 32768, 65536, 65537, 1 << 30, 2147483646, 2147483647, u32::MAX,
    ];
    let cases = NO_MODULUS.map(|modulus| elements.map(|element| (modulus, element, 1)));
    cases.concat()
}

/// No modulus, with values of each range and with values of none, which 25 would refuse.
fn values_of_no_modulus() -> Vec<(u32, i64, u32)> {
    #[rustfmt::skip]
    let sizes = [
        0, 1, 6, 7, 128, 129, 32768, 32769, 65537, (1 << 30) - 1, 1 << 30, 1 << 32, i64::MAX,
    ];
    let mut values = sizes.to_vec();
    values.extend(sizes.map(|size| -size));
    values.push(i64::MIN);
    let of_modulus = |modulus| values.iter().map(move |&value| (modulus, value, 1));
    NO_MODULUS.into_iter().flat_map(of_modulus).collect()
}
