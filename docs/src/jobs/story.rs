//! A story: calls on one job, one after another, each given the hosts heard and the store as the
//! one before left them. It keeps a list of its own of the hosts with a fit message and of the
//! elements of their first ones, and holds each outcome to demand 3, to U1 and to U7.
//!
//!   Story  the calls so far and what they left

use std::collections::BTreeMap;

use super::format::{word, ALREADY_IN};
use crate::sheet::arrival::after;
use crate::sheet::decode::decode;
use crate::sheet::job_call::{first_tests, Act, JobCall};
use crate::sheet::random::Random;
use crate::sheet::whole_job::{written, WholeJob};

/// The calls made so far, the hosts heard and the store after them, the hosts with a fit message
/// in the order of their arrival, the elements of the first of each, whether no two of one host
/// differ, and how many arrivals changed nothing.
pub struct Story<'a> {
    pub whole: &'a WholeJob,
    pub calls: Vec<JobCall>,
    pub heard: u64,
    pub store: Vec<u32>,
    pub arrived: Vec<u32>,
    firsts: BTreeMap<u32, Vec<u32>>,
    agrees: bool,
    idle: u32,
}

impl Story<'_> {
    /// A story that begins with none heard and with anything in the store; decoding is tried.
    pub fn begun<'a>(random: &mut Random, whole: &'a WholeJob) -> Story<'a> {
        let mut story = Story {
            whole,
            calls: Vec::new(),
            heard: 0,
            store: random.words(whole.store_length()),
            arrived: Vec::new(),
            firsts: BTreeMap::new(),
            agrees: true,
            idle: 0,
        };
        story.decodes();
        story
    }

    /// The next call, in which nothing is wrong; an arrival's message is still to be put in.
    pub fn next(&self, act: Act) -> JobCall {
        JobCall {
            heard: self.heard,
            store: self.store.clone(),
            ..self.whole.call(act)
        }
    }

    /// An arrival inside the window or outside it; its message is still to be put in.
    pub fn arrival(&self, random: &mut Random) -> JobCall {
        JobCall {
            minute: random.any_minute(self.whole.job.window()),
            ..self.next(Act::Arrive)
        }
    }

    /// Makes a call that changes nothing: it must be refused with this number, or be in already.
    /// After each third arrival of this kind the store is told, if it is small.
    pub fn changes_nothing(&mut self, call: JobCall, due: u32) {
        assert_eq!(word(&call), due);
        let arrival = call.act == Act::Arrive;
        self.calls.push(call);
        self.idle += u32::from(arrival);
        if arrival && self.idle % 3 == 0 && self.store.len() <= 200 {
            self.tells();
        }
    }

    /// A message arrives from a host with these elements, at any minute of the window.
    pub fn answers(&mut self, host: u32, elements: &[u32]) {
        let minutes = &mut Random::new(self.calls.len() as u64);
        let minute = minutes.inside(self.whole.job.window());
        self.answers_at(minute, host, elements);
    }

    /// A message arrives from a host with these elements at a minute: outside the window it is
    /// refused with 30. Inside it is taken if the host has none in yet, it is in already if the
    /// host's first had the same elements, else it is refused with 23.
    pub fn answers_at(&mut self, minute: u32, host: u32, elements: &[u32]) {
        let mut call = self.next(Act::Arrive);
        (call.minute, call.message) = (minute, written(&self.whole.fields(host), elements));
        let [opening, closing] = self.whole.job.window();
        if !(opening..closing).contains(&minute) {
            return self.changes_nothing(call, 30);
        }
        match self.firsts.get(&host) {
            None => self.takes(call, host, elements),
            Some(first) if first == elements => self.changes_nothing(call, ALREADY_IN),
            Some(_) => {
                self.agrees = false;
                self.changes_nothing(call, 23);
            }
        }
    }

    /// Makes the arrival of a host's first fit message, which has these elements: it is taken.
    fn takes(&mut self, call: JobCall, host: u32, elements: &[u32]) {
        assert_eq!(word(&call), 0);
        (self.heard, self.store) = after(&call);
        self.calls.push(call);
        self.arrived.push(host);
        self.firsts.insert(host, elements.to_vec());
        self.keeps_its_record();
    }

    /// A host's true product arrives.
    pub fn answers_truly(&mut self, host: u32) {
        let whole = self.whole;
        self.answers(host, &whole.products[host as usize - 1]);
    }

    /// A message of a host arrives inside the window whose elements are any other block.
    pub fn answers_falsely(&mut self, random: &mut Random, host: u32) {
        let minute = random.inside(self.whole.job.window());
        self.answers_falsely_at(random, minute, host);
    }

    /// A message of a host arrives at a minute whose elements are any other block.
    pub fn answers_falsely_at(&mut self, random: &mut Random, minute: u32, host: u32) {
        let truth = &self.whole.products[host as usize - 1];
        let mut elements = random.elements(truth.len(), self.whole.q);
        if elements == *truth {
            elements[0] = (elements[0] + 1) % self.whole.q;
        }
        self.answers_at(minute, host, &elements);
    }

    /// Panics unless the hosts heard are those with a fit message, and the store holds the elements
    /// of the first of each, and for the others what it held at first.
    fn keeps_its_record(&self) {
        let begun = &self.calls[0];
        let bits = self.firsts.keys().map(|host| 1_u64 << (host - 1));
        let mut store = begun.store.clone();
        for (&host, elements) in &self.firsts {
            store[begun.block(host)].copy_from_slice(elements);
        }
        assert_eq!((bits.sum::<u64>(), &store), (self.heard, &self.store));
    }

    /// A decoding into a table of exact length: it is done if K hosts had a fit message, and the
    /// table is A times B if those that are used sent true products first.
    pub fn decodes(&mut self) {
        let call = self.next(Act::Decode);
        let is_true = |host: u32| self.firsts[&host] == self.whole.products[host as usize - 1];
        let mut used = self.firsts.keys().take(self.whole.needed);
        let decoded = decode(&call);
        if used.len() < self.whole.needed {
            assert_eq!(decoded, Err(24));
        } else if used.all(|&host| is_true(host)) {
            assert_eq!(decoded.as_ref(), Ok(&self.whole.table));
        } else {
            assert!(decoded.is_ok());
        }
        self.calls.push(call);
    }

    /// The store is told.
    pub fn tells(&mut self) {
        self.calls.push(JobCall::telling(self.store.clone()));
    }

    /// The end: a decoding, and the store is told. If no two fit messages of one host differ, and the
    /// store is not among the largest, all that was done comes once more in another order, with the
    /// same end.
    pub fn ends(&mut self) {
        self.decodes();
        self.tells();
        if self.agrees && self.store.len() <= 4096 {
            self.calls.extend(self.in_another_order());
        }
    }

    /// The calls so far that were given the hosts heard and the store as they were, from the first
    /// store on in another order. They leave the same hosts heard, store and table: a decoding
    /// follows, and the store is told.
    fn in_another_order(&self) -> Vec<JobCall> {
        let calls = self.calls.iter().filter(|call| first_tests(call).is_ok());
        let given: Vec<&JobCall> = calls.collect();
        let (mut heard, mut store) = (0, self.calls[0].store.clone());
        let order = Random::new(self.heard).order(given.len() as u32);
        let mut calls = Vec::new();
        for i in order {
            let mut call = given[i as usize - 1].clone();
            (call.heard, call.store) = (heard, store);
            (heard, store) = after(&call);
            calls.push(call);
        }
        assert_eq!((heard, &store), (self.heard, &self.store));
        let mut decoding = self.whole.call(Act::Decode);
        (decoding.heard, decoding.store) = (heard, store.clone());
        assert_eq!(decode(&decoding), decode(&self.next(Act::Decode)));
        calls.extend([decoding, JobCall::telling(store)]);
        calls
    }
}
