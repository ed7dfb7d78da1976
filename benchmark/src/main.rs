//! The solver's algorithm written plainly in Rust, without contracts: the yardstick that `solve` is timed against.
//! It prints the same lines, so that the two can be compared too.
use std::{env, fs, process};

const NONE: u8 = 8;

struct Rules<'a> {
    widths: [u32; 3],
    moves: &'a [u8],
    answers: &'a [u8],
    next: Vec<&'a [u8]>,
    promises: Vec<&'a [u8]>,
    goals: Vec<&'a [u8]>,
    starts: Vec<usize>,
}

/// Splits a rules file that is known to be good.
fn read(file: &[u8]) -> Rules<'_> {
    let widths = [file[0] as u32, file[1] as u32, file[2] as u32];
    let mut at = 3;
    let mut formula = || {
        let len = file[at] as usize;
        at += 1 + len;
        &file[at - len..at]
    };
    let (moves, answers) = (formula(), formula());
    let next = (0..widths[0]).map(|_| formula()).collect();
    let group = |at: &mut usize| {
        let count = file[*at] as usize;
        *at += 1;
        (0..count)
            .map(|_| {
                let len = file[*at] as usize;
                *at += 1 + len;
                &file[*at - len..*at]
            })
            .collect::<Vec<_>>()
    };
    let promises = group(&mut at);
    let goals = group(&mut at);
    let count = file[at] as usize;
    let starts = (0..count).map(|k| file[at + 1 + 2 * k] as usize + 256 * file[at + 2 + 2 * k] as usize).collect();
    Rules { widths, moves, answers, next, promises, goals, starts }
}

const OF_LANE: [u64; 6] = [
    0xaaaa_aaaa_aaaa_aaaa,
    0xcccc_cccc_cccc_cccc,
    0xf0f0_f0f0_f0f0_f0f0,
    0xff00_ff00_ff00_ff00,
    0xffff_0000_ffff_0000,
    0xffff_ffff_0000_0000,
];

/// Which step each lane is for: the state, and the lane's number as the move or as the answer.
#[derive(Clone, Copy)]
struct Lanes {
    state: usize,
    moved: Option<usize>,
}

fn spread(n: usize, i: u8) -> u64 {
    if (n >> i) & 1 == 1 { u64::MAX } else { 0 }
}

/// The values of the first formula in the row, and what is left of it.
fn first(bytes: &[u8], l: Lanes) -> (u64, &[u8]) {
    let (byte, rest) = (bytes[0], &bytes[1..]);
    match byte {
        0 => (0, rest),
        1 => (u64::MAX, rest),
        16..=31 => (spread(l.state, byte - 16), rest),
        32..=47 => (l.moved.map_or(OF_LANE[(byte - 32) as usize], |e| spread(e, byte - 32)), rest),
        48..=63 => (if l.moved.is_some() { OF_LANE[(byte - 48) as usize] } else { 0 }, rest),
        2 => {
            let (x, rest) = first(rest, l);
            (!x, rest)
        }
        _ => {
            let (x, rest) = first(rest, l);
            let (y, rest) = first(rest, l);
            (if byte == 3 { x & y } else if byte == 4 { x | y } else { !(x ^ y) }, rest)
        }
    }
}

fn ones(bits: u32) -> u64 {
    if bits >= 6 { u64::MAX } else { (1 << (1 << bits)) - 1 }
}

struct Arena {
    states: usize,
    moves: usize,
    answers: usize,
    legal: Vec<u64>,
    allowed: Vec<u64>,
    next: Vec<u16>,
    promises: Vec<u8>,
    goals: Vec<u8>,
    promise_count: usize,
    goal_count: usize,
}

fn holding(formulas: &[&[u8]], state: usize) -> u8 {
    formulas.iter().enumerate().fold(0, |all, (i, f)| all | (((first(f, Lanes { state, moved: None }).0 & 1) as u8) << i))
}

fn tabulate(rules: &Rules) -> Arena {
    let (states, moves, answers) = (1usize << rules.widths[0], 1usize << rules.widths[1], 1usize << rules.widths[2]);
    let mut a = Arena {
        states,
        moves,
        answers,
        legal: vec![0; states],
        allowed: vec![0; states * moves],
        next: vec![0; states * moves * answers],
        promises: (0..states).map(|s| holding(&rules.promises, s)).collect(),
        goals: (0..states).map(|s| holding(&rules.goals, s)).collect(),
        promise_count: rules.promises.len(),
        goal_count: rules.goals.len(),
    };
    for s in 0..states {
        a.legal[s] = first(rules.moves, Lanes { state: s, moved: None }).0 & ones(rules.widths[1]);
        for e in 0..moves {
            if (a.legal[s] >> e) & 1 == 0 {
                continue;
            }
            let lanes = Lanes { state: s, moved: Some(e) };
            let allowed = first(rules.answers, lanes).0 & ones(rules.widths[2]);
            a.allowed[s * moves + e] = allowed;
            if allowed == 0 {
                continue;
            }
            let row = &mut a.next[(s * moves + e) * answers..][..answers];
            for (i, f) in rules.next.iter().enumerate() {
                let word = first(f, lanes).0 & allowed;
                for (k, t) in row.iter_mut().enumerate() {
                    *t |= (((word >> k) & 1) as u16) << i;
                }
            }
        }
    }
    a
}

impl Arena {
    fn after(&self, s: usize, e: usize, k: usize) -> usize {
        self.next[(s * self.moves + e) * self.answers + k] as usize
    }

    fn forces(&self, set: &[bool], s: usize, e: usize) -> bool {
        let allowed = self.allowed[s * self.moves + e];
        (0..self.answers).any(|k| (allowed >> k) & 1 == 1 && set[self.after(s, e, k)])
    }

    fn step_back(&self, set: &[bool], s: usize) -> bool {
        (0..self.moves).all(|e| (self.legal[s] >> e) & 1 == 0 || self.forces(set, s, e))
    }

    fn keeps(&self, i: usize, s: usize) -> bool {
        (self.promises[s] >> i) & 1 == 1
    }

    fn reaches(&self, j: usize, s: usize) -> bool {
        (self.goals[s] >> j) & 1 == 1
    }
}

struct Solved {
    zone: Vec<bool>,
    layers: Vec<u16>,
    avoids: Vec<u8>,
    ranks: Vec<u16>,
    waits: Vec<u8>,
    turns: Vec<u16>,
    rounds: u32,
}

fn enter(found: &[bool], reach: &mut [bool], ranks: &mut [u16], waits: &mut [u8], rank: u32, wait: u8) -> u32 {
    let mut next = rank;
    for s in 0..found.len() {
        if found[s] && !reach[s] {
            reach[s] = true;
            ranks[s] = rank as u16;
            waits[s] = wait;
            next = rank + 1;
        }
    }
    next
}

fn settle(a: &Arena) -> Solved {
    let n = a.states;
    let mut r = Solved {
        zone: vec![true; n],
        layers: vec![0; n],
        avoids: vec![0; n],
        ranks: vec![0; n * a.goal_count],
        waits: vec![0; n * a.goal_count],
        turns: vec![0; n * a.promise_count.max(1)],
        rounds: 0,
    };
    let mut layer = 0u16;
    'outer: loop {
        r.rounds += 1;
        let before_round = layer;
        for j in 0..a.goal_count {
            let (ranks, waits) = (&mut r.ranks[j * n..][..n], &mut r.waits[j * n..][..n]);
            ranks.fill(0);
            waits.fill(0);
            let hits: Vec<bool> = (0..n).map(|s| r.zone[s] && a.reaches(j, s) && a.step_back(&r.zone, s)).collect();
            let mut reach = vec![false; n];
            let mut next = 0;
            'middle: loop {
                let base: Vec<bool> = (0..n).map(|s| hits[s] || reach[s] || r.zone[s] && a.step_back(&reach, s)).collect();
                let mut rank = enter(&base, &mut reach, ranks, waits, next, NONE);
                for i in 0..a.promise_count {
                    let turns = &mut r.turns[i * n..][..n];
                    let mut stay = r.zone.clone();
                    let mut turn = 0;
                    'inner: loop {
                        let before = stay.clone();
                        let mut removed = false;
                        for s in 0..n {
                            if before[s] && !base[s] && (a.keeps(i, s) || !a.step_back(&before, s)) {
                                stay[s] = false;
                                turns[s] = turn;
                                removed = true;
                            }
                        }
                        if !removed {
                            break 'inner;
                        }
                        turn += 1;
                    }
                    rank = enter(&stay, &mut reach, ranks, waits, rank, i as u8);
                }
                if rank == next {
                    break 'middle;
                }
                next = rank;
            }
            let mut dropped = false;
            for s in 0..n {
                if r.zone[s] && !reach[s] {
                    r.zone[s] = false;
                    r.layers[s] = layer;
                    r.avoids[s] = j as u8;
                    dropped = true;
                }
            }
            layer += dropped as u16;
        }
        if layer == before_round {
            break 'outer;
        }
    }
    r
}

/// The table's answers and the counterstrategy's moves; their sum, so that nothing is left out.
fn choose(a: &Arena, r: &Solved) -> u64 {
    let n = a.states;
    let mut sum = 0u64;
    for j in 0..a.goal_count {
        let (ranks, waits) = (&r.ranks[j * n..][..n], &r.waits[j * n..][..n]);
        for s in (0..n).filter(|&s| r.zone[s]) {
            for e in (0..a.moves).filter(|&e| (a.legal[s] >> e) & 1 == 1) {
                let fine = |t: usize| {
                    r.zone[t]
                        && (a.reaches(j, s)
                            || ranks[t] < ranks[s]
                            || ranks[t] == ranks[s] && waits[t] == waits[s] && (waits[s] as usize) < a.promise_count && !a.keeps(waits[s] as usize, s))
                };
                let allowed = a.allowed[s * a.moves + e];
                let answer = (0..a.answers).find(|&k| (allowed >> k) & 1 == 1 && fine(a.after(s, e, k)));
                sum = sum.wrapping_add(answer.unwrap_or(0) as u64);
            }
        }
    }
    for i in 0..a.promise_count.max(1) {
        let turns = &r.turns[i * n..][..n];
        for s in (0..n).filter(|&s| !r.zone[s]) {
            let free = |t: usize| {
                !r.zone[t]
                    && (r.layers[t] < r.layers[s]
                        || r.layers[t] == r.layers[s]
                            && r.avoids[t] == r.avoids[s]
                            && !a.reaches(r.avoids[s] as usize, s)
                            && (a.promise_count == 0 || a.keeps(i, s) || turns[t] < turns[s]))
            };
            let moved = (0..a.moves).find(|&e| {
                let allowed = a.allowed[s * a.moves + e];
                (a.legal[s] >> e) & 1 == 1 && (0..a.answers).all(|k| (allowed >> k) & 1 == 0 || free(a.after(s, e, k)))
            });
            sum = sum.wrapping_add(moved.unwrap_or(0) as u64);
        }
    }
    sum
}

fn main() {
    let Some(path) = env::args().nth(1) else {
        eprintln!("plain_solve: write plain_solve RULES");
        process::exit(1);
    };
    let file = fs::read(path).expect("a rules file");
    let rules = read(&file);
    let arena = tabulate(&rules);
    let solved = settle(&arena);
    let sum = choose(&arena, &solved);
    let known = solved.zone.iter().filter(|&&z| z).count();
    println!("states {} known {} rounds {}", arena.states, known, solved.rounds);
    for (i, &s) in rules.starts.iter().enumerate() {
        match solved.zone[s] {
            true => println!("start {i} won"),
            false => println!("start {i} lost layer {}", solved.layers[s]),
        }
    }
    if env::args().count() > 2 {
        eprintln!("answers and moves sum to {sum}");
    }
    std::hint::black_box(sum);
}
