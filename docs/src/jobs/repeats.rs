//! Cases of messages that come again (02, U1).
//!
//!   expected  arrivals by themselves, each from hosts heard and a store of its own
//!   told      stories of whole jobs

use super::arrivals::drawn;
use super::faults::{heard_before, SMALL};
use super::format::ALREADY_IN;
use super::stories::{answers_otherwise, draw_small};
use super::story::Story;
use crate::cases::draw::turns;
use crate::cases::faults::Expected;
use crate::sheet::job_call::JobCall;
use crate::sheet::message::HEADER;
use crate::sheet::plan::{primes, Line};
use crate::sheet::random::Random;
use crate::sheet::whole_job::WholeJob;

/// All arrivals by themselves; what is due is known from the way they are made.
pub fn expected(random: &mut Random) -> Expected<JobCall> {
    let groups = [
        other_messages(random),
        other_blocks(random),
        whole_blocks(random),
        places(random),
    ];
    groups.concat()
}

/// An arrival of a host that is heard, whose block holds the message.
fn repeated(random: &mut Random, line: Line, host: u32) -> JobCall {
    let mut call = drawn(random, line, host);
    heard_before(&mut call);
    call
}

/// The message that is in the store, and those that differ from it in one element: by 1, and in
/// each bit that leaves it below q.
fn other_messages(random: &mut Random) -> Expected<JobCall> {
    let mut calls = Vec::new();
    for (modulus, q) in primes() {
        let mut line = SMALL;
        line[0] = modulus;
        let base = repeated(random, line, 3);
        let block = base.store[base.block(3)].to_vec();
        calls.push((base.clone(), ALREADY_IN));
        for (i, &element) in block.iter().enumerate() {
            let bits = (0..32).map(|bit| element ^ 1 << bit).filter(|&x| x < q);
            for other in bits.chain([(element + 1) % q, (element + q - 1) % q]) {
                let mut call = base.clone();
                call.message[HEADER + 4 * i..][..4].copy_from_slice(&other.to_be_bytes());
                calls.push((call, 23));
            }
        }
    }
    calls
}

/// Blocks that differ from the message in one element: in one of its 32 bits, by q, by its bytes
/// turned round, and with q, 2^31, 2^32 - 1 and others for it. A host that is not heard is taken
/// whatever its block holds.
fn other_blocks(random: &mut Random) -> Expected<JobCall> {
    let mut calls = Vec::new();
    for (modulus, q) in primes() {
        let base = repeated(random, [modulus, 1, 1, 2, 1, 1, 1, 1, 1, 5], 2);
        calls.push((base.clone(), ALREADY_IN));
        for at in base.block(2) {
            let element = base.store[at];
            let bits = (0..32).map(|bit| element ^ 1 << bit);
            let large = [q, q + 1, 1 << 31, (1 << 31) + element, u32::MAX];
            let near = [element + q, element.swap_bytes(), !element, q - 1, 0];
            let others: Vec<u32> = bits.chain(large).chain(near).collect();
            for other in others {
                let mut call = base.clone();
                call.store[at] = other;
                calls.push((call, if other == element { ALREADY_IN } else { 23 }));
            }
        }
        for store in [base.store.clone(), vec![q; 10], vec![u32::MAX; 10]] {
            let mut call = base.clone();
            (call.heard, call.store) = (0b10001, store);
            calls.push((call, 0));
        }
    }
    calls
}

/// Blocks of a host heard whose elements are those of the message in another order, all others, or
/// all but one others; and blocks and messages all 0 or all q - 1.
fn whole_blocks(random: &mut Random) -> Expected<JobCall> {
    let mut calls = Vec::new();
    for (modulus, q) in primes() {
        let mut line = SMALL;
        line[0] = modulus;
        let base = repeated(random, line, 10);
        let block = base.block(10);
        let changes: [fn(&mut [u32], u32); 6] = [
            |block, _| block.reverse(),
            |block, _| block.rotate_left(1),
            |block, _| block.rotate_right(1),
            |block, q| block.iter_mut().for_each(|x| *x = (*x + 1) % q),
            |block, q| block[1..].iter_mut().for_each(|x| *x = (*x + 1) % q),
            |block, q| block[..7].iter_mut().for_each(|x| *x = (*x + 1) % q),
        ];
        for change in changes {
            let mut call = base.clone();
            change(&mut call.store[block.clone()], q);
            calls.push((call, 23));
        }
        for (sent, held) in [(0, 0), (q - 1, q - 1), (0, q - 1), (0, q), (q - 1, 0)] {
            let mut call = base.clone();
            let bytes = sent.to_be_bytes().repeat(block.len());
            call.message[HEADER..].copy_from_slice(&bytes);
            call.store[block.clone()].fill(held);
            calls.push((call, if sent == held { ALREADY_IN } else { 23 }));
        }
    }
    calls
}

/// Messages that all blocks of the store hold, or all but that of their host, or that one alone, and
/// stores in which they lie an element further on or back; for the lowest hosts and the highest.
fn places(random: &mut Random) -> Expected<JobCall> {
    let mut calls = Vec::new();
    for line in [SMALL, [3, 2, 1, 2, 1, 1, 1, 1, 1, 64]] {
        for host in [1, 2, line[9] - 1, line[9]] {
            let base = repeated(random, line, host);
            let block = base.block(host);
            let mut all = base.clone();
            all.store = base.store[block.clone()].repeat(line[9] as usize);
            let mut fresh = all.clone();
            fresh.heard ^= 1 << (host - 1);
            let mut elsewhere = all.clone();
            let others = random.words(block.len());
            elsewhere.store[block].copy_from_slice(&others);
            let (mut further, mut back) = (base.clone(), base.clone());
            further.store.rotate_right(1);
            back.store.rotate_left(1);
            calls.extend([(base, ALREADY_IN), (all, ALREADY_IN), (fresh, 0)]);
            calls.extend([elsewhere, further, back].map(|call| (call, 23)));
        }
    }
    calls
}

/// All stories: jobs with few hosts, the moduli and the layouts in turn.
pub fn told(random: &mut Random) -> Vec<JobCall> {
    let mut calls = Vec::new();
    for round in 0..turns() {
        let whole = draw_small(random, round);
        calls.extend(sent_again(random, &whole, true));
        calls.extend(sent_again(random, &whole, false));
        calls.extend(sent_often(random, &whole));
    }
    calls
}

/// The first host sends its message twice; if it is quiet it sends no other between. Then the others
/// send theirs, decoding is made, and the first sends its message once more.
fn sent_again(random: &mut Random, whole: &WholeJob, is_quiet: bool) -> Vec<JobCall> {
    let mut story = Story::begun(random, whole);
    let order = random.order(whole.job.hosts);
    let (&first, others) = order.split_first().expect("a host");
    story.answers_truly(first);
    if !is_quiet {
        answers_otherwise(&mut story, first);
    }
    story.answers_truly(first);
    others.iter().for_each(|&host| story.answers_truly(host));
    story.decodes();
    story.answers_truly(first);
    story.ends();
    story.calls
}

/// Every host sends its message up to three times, one of them always the same false one.
fn sent_often(random: &mut Random, whole: &WholeJob) -> Vec<JobCall> {
    let hosts = whole.job.hosts;
    let mut story = Story::begun(random, whole);
    let false_block = random.elements(whole.products[0].len(), whole.q);
    let liar = random.within(1, hosts);
    for i in random.order(3 * hosts) {
        let host = (i - 1) % hosts + 1;
        if host == liar {
            story.answers(host, &false_block);
        } else if i <= hosts || random.within(0, 1) == 0 {
            story.answers_truly(host);
        }
    }
    story.ends();
    story.calls
}
