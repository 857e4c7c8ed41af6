//! The pair procedure: places, pairs of places, and the graph of the pairs
//! reached from the first pairs.

use crate::code::Code;
use crate::rivals::Rivals;
use std::collections::HashMap;
use std::hash::{BuildHasherDefault, Hasher};

/// Places numbered through the words in order; the first place of a word is
/// its first symbol read, its last place is the word's end.
pub struct Places {
    /// The first place of each word.
    pub first: Vec<u8>,
    /// Is this place its word's end?
    pub is_end: Vec<bool>,
    /// Where symbols lead from a place: its part of `leads` begins at `begin[place]`.
    begin: Vec<u16>,
    leads: Vec<(u8, u8)>,
}

impl Places {
    pub fn new(code: &Code) -> Places {
        let mut places = Places { first: Vec::new(), is_end: Vec::new(), begin: vec![0], leads: Vec::new() };
        let mut next = 0;
        for word in &code.words {
            places.first.push(next as u8);
            next += word.len();
        }
        for (y, word) in code.words.iter().enumerate() {
            let first = places.first[y];
            for read in 1..=word.len() {
                if read < word.len() {
                    places.leads.push((word[read], first + read as u8));
                } else {
                    let followers = (0..code.words.len()).filter(|&x| code.may_follow(x, y));
                    places.leads.extend(followers.map(|x| (code.words[x][0], places.first[x])));
                }
                places.is_end.push(read == word.len());
                places.begin.push(places.leads.len() as u16);
            }
        }
        places
    }

    /// The symbols that lead on from a place, each with a place it leads to.
    pub fn leads(&self, place: u8) -> &[(u8, u8)] {
        let place = place as usize;
        &self.leads[self.begin[place] as usize..self.begin[place + 1] as usize]
    }
}

/// Pairs are unordered: the lower place stands first.
type Pair = (u8, u8);

fn pair(p: u8, q: u8) -> Pair {
    (p.min(q), p.max(q))
}

/// One multiplication spreads a pair well enough over a table of this size.
#[derive(Default)]
struct PairHasher(u64);

impl Hasher for PairHasher {
    fn finish(&self) -> u64 {
        self.0
    }
    fn write(&mut self, bytes: &[u8]) {
        bytes.iter().for_each(|&byte| self.write_u8(byte));
    }
    fn write_u8(&mut self, byte: u8) {
        self.0 = (self.0.rotate_left(8) ^ byte as u64).wrapping_mul(0x9E37_79B9_7F4A_7C15);
    }
    fn write_u16(&mut self, key: u16) {
        self.0 = (key as u64).wrapping_mul(0x9E37_79B9_7F4A_7C15);
    }
}

fn key(pair: Pair) -> u16 {
    (pair.0 as u16) << 8 | pair.1 as u16
}

/// Stands for the start where a pair has no pair before it.
const START: u32 = u32::MAX;

/// What a walk from the start over all pairs met.
#[derive(Default)]
pub struct Graph {
    /// The pairs, in the order of their earliest shortest messages.
    pub pairs: Vec<Pair>,
    /// For each pair, the number of the pair it was first met from, and the symbol.
    met_from: Vec<(u32, u8)>,
    /// All steps between the pairs, by number, with their symbols.
    pub steps: Vec<(u32, u8, u32)>,
    /// A pair of two different ends, if one was met; the walk stops there.
    ends: Option<u32>,
}

/// The pairs reached from two rivals, where two sequences part. The start of
/// each message is then the end of an opening that both share.
pub fn explore(code: &Code, rivals: &Rivals) -> Graph {
    walk(code, |x, y| rivals.compete(x, y))
}

/// The pairs reached from words that may both begin, among them each word with
/// itself: while two sequences share an opening, their places are the same.
/// They can only part at a word's end, and two that have parted only come to
/// the same place where their words end together. So a pair of two different
/// ends is the first sign of an ambiguous message.
pub fn explore_openings(code: &Code) -> Graph {
    walk(code, |x, y| code.starts[x] && code.starts[y])
}

/// Walks the pairs from the start: which words with the same first symbol give
/// a first pair is told, the lower number first. Pairs first met by the same
/// message form a group; the groups form a queue in the order of their
/// messages, shorter first, then symbol order. So the first pair of two ends
/// that is met carries the shortest message to such a pair, the earliest among
/// equals.
pub fn walk(code: &Code, first: impl Fn(usize, usize) -> bool) -> Graph {
    let places = Places::new(code);
    let mut walk = Walk::default();
    for x in 0..code.words.len() {
        for y in x..code.words.len() {
            if code.words[x][0] == code.words[y][0] && first(x, y) {
                let first = pair(places.first[x], places.first[y]);
                walk.buckets[code.words[x][0] as usize].push((START, first));
            }
        }
    }
    let mut group = 0;
    while !walk.meet(&places) && group < walk.groups.len() {
        let (begin, end) = walk.groups[group];
        for from in begin..end {
            let (p, q) = walk.graph.pairs[from as usize];
            for &(symbol, p_next) in places.leads(p) {
                for &(other, q_next) in places.leads(q) {
                    if symbol == other {
                        walk.buckets[symbol as usize].push((from, pair(p_next, q_next)));
                    }
                }
            }
        }
        group += 1;
    }
    walk.graph
}

#[derive(Default)]
struct Walk {
    graph: Graph,
    numbers: HashMap<u16, u32, BuildHasherDefault<PairHasher>>,
    /// Groups as ranges of pair numbers.
    groups: Vec<(u32, u32)>,
    /// For each symbol, the pairs it leads to from the group at hand.
    buckets: [Vec<(u32, Pair)>; 16],
}

impl Walk {
    /// Takes in what the buckets hold, symbol by symbol. True when a pair of two different ends was met.
    fn meet(&mut self, places: &Places) -> bool {
        for symbol in 0..16 {
            let begin = self.graph.pairs.len() as u32;
            for (from, to) in self.buckets[symbol as usize].drain(..) {
                let next = self.graph.pairs.len() as u32;
                let number = *self.numbers.entry(key(to)).or_insert(next);
                if number == next {
                    self.graph.pairs.push(to);
                    self.graph.met_from.push((from, symbol));
                    if to.0 != to.1 && places.is_end[to.0 as usize] && places.is_end[to.1 as usize] {
                        self.graph.ends = Some(number);
                        return true;
                    }
                }
                if from != START {
                    self.graph.steps.push((from, symbol, number));
                }
            }
            let end = self.graph.pairs.len() as u32;
            if begin < end {
                self.groups.push((begin, end));
            }
        }
        false
    }
}

impl Graph {
    /// The message that led to the pair of two different ends, if one was met.
    pub fn ambiguous_message(&self) -> Option<Vec<u8>> {
        let mut at = self.ends?;
        let mut message = Vec::new();
        while at != START {
            let (from, symbol) = self.met_from[at as usize];
            message.push(symbol);
            at = from;
        }
        message.reverse();
        Some(message)
    }

    /// The steps of the longest path from the start, the step to a first pair
    /// included; none when there is a circle. A pair is taken once all steps
    /// into it are done with; on a circle that never comes.
    pub fn longest_path(&self) -> Option<usize> {
        let count = self.pairs.len();
        let mut begin = vec![0u32; count + 1];
        let mut waits = vec![0u32; count];
        for &(from, _, to) in &self.steps {
            begin[from as usize + 1] += 1;
            waits[to as usize] += 1;
        }
        for i in 0..count {
            begin[i + 1] += begin[i];
        }
        let mut fill = begin.clone();
        let mut targets = vec![0u32; self.steps.len()];
        for &(from, _, to) in &self.steps {
            targets[fill[from as usize] as usize] = to;
            fill[from as usize] += 1;
        }
        let mut queue: Vec<u32> = (0..count as u32).filter(|&i| waits[i as usize] == 0).collect();
        let mut length = vec![1usize; count];
        let mut taken = 0;
        while taken < queue.len() {
            let from = queue[taken] as usize;
            taken += 1;
            for &to in &targets[begin[from] as usize..begin[from + 1] as usize] {
                let to = to as usize;
                length[to] = length[to].max(length[from] + 1);
                waits[to] -= 1;
                if waits[to] == 0 {
                    queue.push(to as u32);
                }
            }
        }
        (taken == count).then(|| length.into_iter().max().unwrap_or(0))
    }
}
