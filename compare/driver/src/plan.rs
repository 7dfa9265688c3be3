//! Which inputs a run has, and how many of each.

use crate::{
    ask,
    inputs::{
        Files, Input,
        bytes::{self, Right},
        damage, edges, git, history, names,
    },
    list,
    seeded::Seeded,
    tally::Tally,
};
use std::path::Path;

/// How many inputs of each kind; how many other values each byte of the small chain gets.
pub struct Plan {
    seed: u64,
    git: usize,
    synthetic: usize,
    many_files: usize,
    gibibyte: bool,
    on_a_line: bool,
    values: usize,
    cuts: bool,
    damage: usize,
    names: usize,
}

const NOTHING: Plan =
    Plan { seed: 1, git: 0, synthetic: 0, many_files: 0, gibibyte: false, on_a_line: false, values: 0, cuts: false, damage: 0, names: 0 };

impl Plan {
    pub fn short() -> Plan {
        Plan {
            git: 16,
            synthetic: 200,
            many_files: 1,
            gibibyte: true,
            on_a_line: true,
            values: 1,
            cuts: true,
            damage: 2000,
            names: 500,
            ..NOTHING
        }
    }

    pub fn long() -> Plan {
        Plan { git: 64, synthetic: 2000, many_files: 4, values: 255, damage: 40_000, names: 20_000, ..Plan::short() }
    }

    /// What is enough to notice each planted error.
    pub fn planted() -> Plan {
        Plan { synthetic: 20, on_a_line: true, damage: 400, names: 40, ..NOTHING }
    }

    /// Synthetic chains and damage alone, by another seed.
    pub fn random(seed: u64, count: usize) -> Plan {
        Plan { seed, synthetic: count / 10, damage: count - count / 10, ..NOTHING }
    }

    pub fn run(&self, t: &mut Tally, folder: &Path) {
        let mut seeded = Seeded::new(self.seed);
        let s = &mut seeded;
        let mut sound = vec![bytes::small()];
        self.sound(t, s, folder, &mut sound);
        self.lines(t, s);
        self.single_bytes(t, s);
        self.truncations(t, s);
        for _ in 0..self.damage {
            let fresh = s.once_in(2).then(|| history::shape(s)).map(|shape| history::chain(s, shape));
            let whole = fresh.unwrap_or_else(|| sound[s.below(sound.len())].clone());
            let input = damage::chain(s, &whole);
            ask::input(t, s, &input);
        }
        self.names(t, s);
    }

    /// Chains without a fault: git's, and synthetic ones.
    fn sound(&self, t: &mut Tally, s: &mut Seeded, folder: &Path, sound: &mut Vec<Files>) {
        for k in 0..self.git {
            let shape = git::shape(s, k);
            sound.push(git::chain(s, folder, shape));
            ask::input(t, s, &sound[sound.len() - 1].input("git"));
        }
        for _ in 0..self.synthetic {
            let shape = history::shape(s);
            let input = history::chain(s, shape).input("synthetic");
            ask::input(t, s, &input);
        }
        for _ in 0..self.many_files {
            let inputs = edges::many_files(s);
            inputs.iter().for_each(|input| ask::input(t, s, input));
        }
    }

    fn lines(&self, t: &mut Tally, s: &mut Seeded) {
        if self.on_a_line {
            edges::all().iter().for_each(|input| ask::input(t, s, input));
        }
        if self.gibibyte {
            [list::MOST, list::MOST + 1].iter().for_each(|size| ask::large(t, s, *size));
        }
    }

    /// Every byte of the small chain, and of its list, in turn.
    fn single_bytes(&self, t: &mut Tally, s: &mut Seeded) {
        let small = bytes::small();
        let mut change = |t: &mut Tally, old: u8, make: &dyn Fn(u8) -> Input| {
            let from = if self.values == 255 { 1 } else { s.between(1, 255) };
            for k in 0..self.values {
                let input = make(old ^ ((from + k - 1) % 255 + 1) as u8);
                ask::input(t, s, &input);
            }
        };
        for (file, (content, _)) in small.0.iter().enumerate() {
            for (at, old) in content.iter().enumerate() {
                change(t, *old, &|byte| bytes::change(&small, file, at, byte, Right::All));
            }
        }
        for (at, old) in small.list().iter().enumerate() {
            change(t, *old, &|byte| bytes::change_list(&small, at, byte));
        }
        self.unsealed_bytes(t, s, &small);
    }

    /// The same with the trailer alone made right again, or nothing: one value each.
    fn unsealed_bytes(&self, t: &mut Tally, s: &mut Seeded, small: &Files) {
        if self.values < 255 {
            return;
        }
        for (file, (content, _)) in small.0.iter().enumerate() {
            for (at, old) in content.iter().enumerate() {
                for right in [Right::Trailer, Right::Nothing] {
                    let input = bytes::change(small, file, at, old ^ s.between(1, 255) as u8, right);
                    ask::input(t, s, &input);
                }
            }
        }
    }

    /// Every length of the small chain and of its list.
    fn truncations(&self, t: &mut Tally, s: &mut Seeded) {
        if !self.cuts {
            return;
        }
        let small = bytes::small();
        let (size, list) = (small.chain().len(), small.list().len());
        for length in 0..size {
            ask::input(t, s, &bytes::cut(&small, length, length % 2 == 0));
            ask::input(t, s, &bytes::cut_alone(&small, length));
        }
        for length in 0..list {
            ask::input(t, s, &bytes::cut_list(&small, length));
        }
    }

    fn names(&self, t: &mut Tally, s: &mut Seeded) {
        if self.names == 0 || t.is_done() {
            return;
        }
        let files = names::files();
        let plain = names::PLAIN.iter().map(|name| name.to_vec());
        let made: Vec<Vec<u8>> = (0..self.names).map(|_| names::name(&files, s)).collect();
        for name in plain.chain(names::claims(&files)).chain(made) {
            t.begin(&Input { kind: "names", chain: name.clone(), list: Vec::new() });
            ask::names::name(t, &files, &name);
        }
        self.messages(t, s);
    }

    fn messages(&self, t: &mut Tally, s: &mut Seeded) {
        for (message, hex) in names::published() {
            t.begin(&Input { kind: "messages", chain: message.clone(), list: Vec::new() });
            ask::names::published(t, &message, hex);
            ask::names::message(t, &message);
        }
        for _ in 0..self.names {
            let message = names::message(s);
            t.begin(&Input { kind: "messages", chain: message.clone(), list: Vec::new() });
            ask::names::message(t, &message);
        }
    }
}
