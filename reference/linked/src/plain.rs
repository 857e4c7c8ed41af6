//! The verdict as one would write it at first: pairs of places in the standard
//! hash set and a queue; and the next word by it. A baseline for times.

use reference::code::{Code, Refusal};
use reference::operations::{next_by_delay, Buffers, VerdictLengths, VERDICT_ENTRIES, VERDICT_WORKING};
use reference::read::{first_two, Readings};
use reference::rivals::Rivals;
use reference::table::Table;
use reference::verdict::Verdict;
use std::collections::{HashMap, HashSet, VecDeque};

/// The operation with its lent buffers, which it leaves as the proved one does.
pub fn on_table(table: &Table, buffers: &mut Buffers) -> Result<VerdictLengths, Refusal> {
    let code = table.code().ok_or(Refusal::NotFromSheet)?;
    let entries = [&buffers.message, &buffers.first, &buffers.second];
    if entries.iter().any(|buffer| buffer.len() < VERDICT_ENTRIES) || buffers.working.len() < VERDICT_WORKING {
        return Err(Refusal::ShortBuffer);
    }
    buffers.working.fill(0);
    Ok(match verdict(&code) {
        Verdict::Delay(delay) => VerdictLengths::Delay(delay),
        Verdict::Unbounded => VerdictLengths::Unbounded,
        Verdict::Ambiguous { message, first, second } => {
            buffers.message[..message.len()].copy_from_slice(&message);
            buffers.first[..first.len()].copy_from_slice(&first);
            buffers.second[..second.len()].copy_from_slice(&second);
            VerdictLengths::Ambiguous { message: message.len(), first: first.len(), second: second.len() }
        }
    })
}

/// The next word with its lent buffer: the delay by the verdict below, then the words by which the first symbols may begin.
pub fn next_on_table(table: &Table, message: &[u8], working: &mut [u64]) -> Result<u8, Refusal> {
    next_by_delay(table, message, working, |code| verdict(code).delay())
}

type Pair = (u8, u8);

/// For each place the symbols that lead on, each with the place it leads to; and whether the place is a word's end.
struct Places {
    first: Vec<u8>,
    leads: Vec<Vec<(u8, u8)>>,
    is_end: Vec<bool>,
}

impl Places {
    fn new(code: &Code) -> Places {
        let mut places = Places { first: Vec::new(), leads: Vec::new(), is_end: Vec::new() };
        let mut next = 0;
        for word in &code.words {
            places.first.push(next);
            next += word.len() as u8;
        }
        for (y, word) in code.words.iter().enumerate() {
            for read in 1..word.len() {
                places.leads.push(vec![(word[read], places.first[y] + read as u8)]);
                places.is_end.push(false);
            }
            let followers = (0..code.words.len()).filter(|&x| code.may_follow(x, y));
            places.leads.push(followers.map(|x| (code.words[x][0], places.first[x])).collect());
            places.is_end.push(true);
        }
        places
    }

    /// The pairs to which a symbol leads a pair on.
    fn after(&self, (p, q): Pair, symbol: u8) -> Vec<Pair> {
        let led = |place: u8| self.leads[place as usize].iter().filter(|lead| lead.0 == symbol).map(|lead| lead.1);
        led(p).flat_map(|p| led(q).map(move |q| (p.min(q), p.max(q)))).collect()
    }

    /// Are these two different ends?
    fn both_end(&self, (p, q): Pair) -> bool {
        p != q && self.is_end[p as usize] && self.is_end[q as usize]
    }
}

/// Pairs first met by the same message, with the message's last symbol and the group before.
struct Group {
    from: Option<usize>,
    symbol: u8,
    pairs: Vec<Pair>,
}

pub fn verdict(code: &Code) -> Verdict {
    let rivals = Rivals::of(code);
    if rivals.none() {
        return Verdict::Delay(0);
    }
    let places = Places::new(code);
    let firsts = first_pairs(code, &places, |x, y| rivals.compete(x, y));
    if let Some(mut message) = shortest(&places, &firsts) {
        if code.starts.contains(&false) {
            // Once more from the start of a message: a word with itself is an opening that both sequences share.
            let openings = first_pairs(code, &places, |x, y| code.starts[x] && code.starts[y]);
            message = shortest(&places, &openings).expect("rivals stand after an opening");
        }
        let Some(Readings::Two(first, second)) = first_two(code, &message) else { unreachable!("two readings") };
        return Verdict::Ambiguous { message, first, second };
    }
    let mut heights = HashMap::new();
    let mut longest = 0;
    for pair in firsts.into_iter().flatten() {
        match height(&places, pair, &mut heights) {
            Some(height) => longest = longest.max(height + 1),
            None => return Verdict::Unbounded,
        }
    }
    Verdict::Delay(longest + 1)
}

/// The first pairs of the words that are wanted, by their symbol.
fn first_pairs(code: &Code, places: &Places, wanted: impl Fn(usize, usize) -> bool) -> Vec<Vec<Pair>> {
    let mut pairs = vec![Vec::new(); 16];
    for x in 0..code.words.len() {
        for y in x..code.words.len() {
            if wanted(x, y) && code.words[x][0] == code.words[y][0] {
                pairs[code.words[x][0] as usize].push((places.first[x], places.first[y]));
            }
        }
    }
    pairs
}

/// The shortest message from first pairs to two different ends, the earliest among equals.
fn shortest(places: &Places, firsts: &[Vec<Pair>]) -> Option<Vec<u8>> {
    let mut met: HashSet<Pair> = HashSet::new();
    let mut groups: Vec<Group> = Vec::new();
    let mut queue: VecDeque<Option<usize>> = VecDeque::from([None]);
    while let Some(from) = queue.pop_front() {
        for symbol in 0..16 {
            let led: Vec<Pair> = match from {
                None => firsts[symbol as usize].clone(),
                Some(at) => groups[at].pairs.iter().flat_map(|&pair| places.after(pair, symbol)).collect(),
            };
            let pairs: Vec<Pair> = led.into_iter().filter(|&pair| met.insert(pair)).collect();
            if pairs.is_empty() {
                continue;
            }
            let ambiguous = pairs.iter().any(|&pair| places.both_end(pair));
            groups.push(Group { from, symbol, pairs });
            if ambiguous {
                return Some(message(&groups));
            }
            queue.push_back(Some(groups.len() - 1));
        }
    }
    None
}

/// The message of the last group.
fn message(groups: &[Group]) -> Vec<u8> {
    let mut symbols = Vec::new();
    let mut at = groups.len().checked_sub(1);
    while let Some(number) = at {
        symbols.push(groups[number].symbol);
        at = groups[number].from;
    }
    symbols.reverse();
    symbols
}

/// The steps of the longest path from a pair; none where it runs into a circle.
/// A pair whose height is being found stands in the table without one.
fn height(places: &Places, pair: Pair, heights: &mut HashMap<Pair, Option<usize>>) -> Option<usize> {
    if let Some(&known) = heights.get(&pair) {
        return known;
    }
    heights.insert(pair, None);
    let mut most = 0;
    for symbol in 0..16 {
        for next in places.after(pair, symbol) {
            most = most.max(height(places, next, heights)? + 1);
        }
    }
    heights.insert(pair, Some(most));
    Some(most)
}
