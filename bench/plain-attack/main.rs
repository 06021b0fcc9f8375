//! A plain attack on a deck, to compare with: the same order of images and the same tests as the proved
//! one, so the same nodes. It reads numbers: how many contests; for each its limit and its targets; how
//! many ballots; and for each a line of 0 and 1. It writes the nodes and the microseconds a node.

use std::io::Read;
use std::time::Instant;

struct Contest {
    limit: u16,
    first: usize,
    last: usize,
}

struct Attack {
    contests: Vec<Contest>,
    contest_of: Vec<usize>,
    // For each target the ballots that mark it.
    markers: Vec<Vec<usize>>,
    wanted: Vec<u32>,
    wanted_total: u32,
    marks: u32,
    order: Vec<usize>,
    // The state: sources, which targets are used, and counts that each step changes.
    sources: Vec<Option<usize>>,
    used: Vec<bool>,
    taken: Vec<Vec<u16>>,
    free: Vec<u16>,
    empty: Vec<u16>,
    lost: u32,
    nodes: u64,
}

impl Attack {
    fn step(&mut self, u: usize, t: usize, on: bool) {
        let c = self.contest_of[u];
        let limit = self.contests[c].limit;
        let over = |n: u16| if n > limit { u32::from(n) } else { 0 };
        for j in &self.markers[t] {
            let before = self.taken[c][*j];
            let after = if on { before + 1 } else { before - 1 };
            self.lost = self.lost + over(after) - over(before);
            self.taken[c][*j] = after;
            self.free[*j] = if on { self.free[*j] - 1 } else { self.free[*j] + 1 };
        }
        self.used[t] = on;
        self.sources[u] = if on { Some(t) } else { None };
        self.empty[c] = if on { self.empty[c] - 1 } else { self.empty[c] + 1 };
    }

    fn misses(&self, w: usize) -> bool {
        let Some(t) = self.sources[w] else {
            return false;
        };
        let c = self.contest_of[w];
        let limit = self.contests[c].limit;
        let (mut may, mut must) = (0, 0);
        let taken = &self.taken[c];
        for j in &self.markers[t] {
            if taken[*j] <= limit {
                may += 1;
                must += u32::from(taken[*j] + self.empty[c].min(self.free[*j]) <= limit);
            }
        }
        may < self.wanted[w] || must > self.wanted[w]
    }

    fn is_dead(&self, u: usize) -> bool {
        let c = self.contest_of[u];
        self.misses(u)
            || (self.contests[c].first..self.contests[c].last).any(|w| self.misses(w))
            || self.marks < self.lost + self.wanted_total
            || (0..self.contests.len()).any(|d| {
                d != c
                    && self.empty[d] > 0
                    && (self.contests[d].first..self.contests[d].last).any(|w| self.misses(w))
            })
    }

    // Whether nothing evades from here on.
    fn search(&mut self) -> bool {
        self.nodes += 1;
        let next = self.order.iter().copied().find(|u| self.sources[*u].is_none());
        let Some(u) = next else {
            return self.sources.iter().enumerate().all(|(u, t)| *t == Some(u));
        };
        for t in 0..self.used.len() {
            if !self.used[t] {
                self.step(u, t, true);
                let ok = self.is_dead(u) || self.search();
                self.step(u, t, false);
                if !ok {
                    return false;
                }
            }
        }
        true
    }
}

// Contest by contest, those with the fewest rivals first; in one the greatest column first.
fn order_of(contests: &[Contest], ballots: &[Vec<bool>], targets: usize) -> Vec<usize> {
    let columns: Vec<u32> = (0..targets)
        .map(|t| ballots.iter().filter(|b| b[t] && !b.iter().all(|m| *m)).count() as u32)
        .collect();
    let rivals = |u: usize| {
        let own = columns.iter().filter(|n| **n == columns[u]).count() as u64;
        own.pow(4).ilog2()
    };
    let mut ranks = Vec::new();
    for (c, contest) in contests.iter().enumerate() {
        let images = contest.first..contest.last;
        let weight: u32 = images.clone().map(rivals).sum();
        let top = images.clone().map(|u| columns[u]).max().unwrap_or(0);
        let is_last = usize::from(contest.limit) >= images.len() && weight > 0;
        for u in images {
            ranks.push((is_last, weight, u32::MAX - top, c, u32::MAX - columns[u], u));
        }
    }
    ranks.sort();
    ranks.iter().map(|rank| rank.5).collect()
}

fn main() {
    let mut text = String::new();
    std::io::stdin().read_to_string(&mut text).unwrap();
    let mut words = text.split_whitespace();
    let mut number = || words.next().unwrap().parse::<usize>().unwrap();
    let mut contests = Vec::new();
    let mut targets = 0;
    for _ in 0..number() {
        let limit = number() as u16;
        let count = number();
        contests.push(Contest { limit, first: targets, last: targets + count });
        targets += count;
    }
    let count = number();
    let ballots: Vec<Vec<bool>> = (0..count)
        .map(|_| words.next().unwrap().bytes().map(|b| b == b'1').collect())
        .collect();
    let mut contest_of = vec![0; targets];
    for (c, contest) in contests.iter().enumerate() {
        contest_of[contest.first..contest.last].fill(c);
    }
    let votes = |u: usize| {
        let contest = &contests[contest_of[u]];
        let fits = |b: &Vec<bool>| {
            let marks = b[contest.first..contest.last].iter().filter(|m| **m).count();
            b[u] && marks <= usize::from(contest.limit)
        };
        ballots.iter().filter(|b| fits(b)).count() as u32
    };
    let wanted: Vec<u32> = (0..targets).map(votes).collect();
    let markers = (0..targets)
        .map(|t| (0..count).filter(|j| ballots[*j][t]).collect())
        .collect();
    let free: Vec<u16> =
        ballots.iter().map(|b| b.iter().filter(|m| **m).count() as u16).collect();
    let mut attack = Attack {
        order: order_of(&contests, &ballots, targets),
        marks: free.iter().map(|n| u32::from(*n)).sum(),
        empty: contests.iter().map(|c| (c.last - c.first) as u16).collect(),
        taken: vec![vec![0; count]; contests.len()],
        sources: vec![None; targets],
        used: vec![false; targets],
        lost: 0,
        nodes: 0,
        contests,
        contest_of,
        markers,
        wanted_total: wanted.iter().sum(),
        wanted,
        free,
    };
    let start = Instant::now();
    let robust = attack.search();
    let micros = start.elapsed().as_secs_f64() * 1e6;
    let answer = if robust { "robust" } else { "evaded" };
    println!("{answer} {} nodes, {:.2} us a node", attack.nodes, micros / attack.nodes as f64);
}
