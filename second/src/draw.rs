//! Random instances.

use crate::instance::{Branch, Instance, MOST_TOTAL, Step};

/// A source of random numbers: a counter, each of whose values is mixed.
pub struct Lots {
    count: u64,
}

/// How large the instances are to be.
pub struct Sizes {
    /// The most branches a side.
    pub size: u64,
    /// The chance that a pair is related, in percent.
    pub density: u64,
}

impl Lots {
    pub fn new(seed: u64) -> Lots {
        Lots {
            count: seed.wrapping_mul(0xd134_2543_de82_ef95),
        }
    }

    fn next(&mut self) -> u64 {
        self.count = self.count.wrapping_add(0x9e37_79b9_7f4a_7c15);
        let mixed = (self.count ^ (self.count >> 30)).wrapping_mul(0xbf58_476d_1ce4_e5b9);
        let mixed = (mixed ^ (mixed >> 27)).wrapping_mul(0x94d0_49bb_1331_11eb);
        mixed ^ (mixed >> 31)
    }

    /// A number below a bound.
    fn below(&mut self, bound: u64) -> u64 {
        ((u128::from(self.next()) * u128::from(bound)) >> 64) as u64
    }

    /// A number from 1 to a bound.
    fn up_to(&mut self, bound: u64) -> u64 {
        1 + self.below(bound)
    }

    fn chance(&mut self, percent: u64) -> bool {
        self.below(100) < percent
    }

    /// So many targets, rising.
    fn targets(&mut self, count: u64) -> Vec<u8> {
        let mut left = count;
        let mut targets = Vec::new();
        for target in 0..64 {
            if self.below(64 - u64::from(target)) < left {
                targets.push(target);
                left -= 1;
            }
        }
        targets
    }

    fn dense(&mut self, density: u64) -> [u64; 64] {
        std::array::from_fn(|_| {
            (0..64).fold(0, |word, v| word | (u64::from(self.chance(density)) << v))
        })
    }

    /// Mostly of the density that is wanted, at times empty, complete or diagonal.
    fn words(&mut self, density: u64) -> [u64; 64] {
        match self.below(20) {
            0 => [0; 64],
            1 => [u64::MAX; 64],
            2 => std::array::from_fn(|u| 1 << u),
            _ => self.dense(density),
        }
    }

    /// A bound for weights, such that so many of them stay within a total.
    fn bound(&mut self, count: u64) -> u64 {
        match self.below(4) {
            0 => 2,
            1 => 10,
            2 => 1_000_000,
            _ => MOST_TOTAL / count.max(1),
        }
    }

    fn step(&mut self, action: u8, count: u64, bound: u64) -> Step {
        let targets = self.targets(count);
        let branch = |target| Branch {
            target,
            weight: self.up_to(bound) as u32,
        };
        Step {
            action,
            branches: targets.into_iter().map(branch).collect(),
        }
    }
}

/// Two steps that match, since their weights are sums of weights between related targets; or that just fail to, since one weight
/// has changed.
fn tight(lots: &mut Lots, sizes: &Sizes, words: [u64; 64]) -> Instance {
    let pairs: Vec<(u8, u8)> = {
        let (left, right) = (lots.targets(sizes.size), lots.targets(sizes.size));
        let related = |u: u8, v: u8| words[usize::from(u)] >> v & 1 == 1;
        let row = |u: u8| {
            right
                .iter()
                .filter(move |v| related(u, **v))
                .map(move |v| (u, *v))
        };
        left.iter().flat_map(|u| row(*u)).collect()
    };
    let bound = lots.bound(pairs.len() as u64);
    let (mut sent, mut received) = ([0; 64], [0; 64]);
    for (u, v) in pairs {
        if lots.chance(30) {
            let weight = lots.up_to(bound) as u32;
            sent[usize::from(u)] += weight;
            received[usize::from(v)] += weight;
        }
    }
    if lots.chance(40) {
        let place = lots.below(64) as usize;
        received[place] -= u32::from(received[place] > 0);
    }
    let action = lots.below(32) as u8;
    let step = |weights: [u32; 64]| Step {
        action,
        branches: (0..64)
            .map(|target| Branch {
                target,
                weight: weights[usize::from(target)],
            })
            .filter(|branch| branch.weight > 0)
            .collect(),
    };
    Instance {
        left: step(sent),
        right: step(received),
        words,
    }
}

/// Two steps that have nothing to do with each other.
fn loose(lots: &mut Lots, sizes: &Sizes, words: [u64; 64]) -> Instance {
    let count = |lots: &mut Lots| {
        if lots.chance(2) {
            0
        } else {
            lots.up_to(sizes.size)
        }
    };
    let (left, right) = (count(lots), count(lots));
    let bound = lots.bound(sizes.size);
    let action = lots.below(32) as u8;
    let other = if lots.chance(5) {
        lots.below(32) as u8
    } else {
        action
    };
    Instance {
        left: lots.step(action, left, bound),
        right: lots.step(other, right, bound),
        words,
    }
}

/// An instance of any kind.
pub fn any(lots: &mut Lots, sizes: &Sizes) -> Instance {
    let words = lots.words(sizes.density);
    if lots.chance(40) {
        tight(lots, sizes, words)
    } else {
        loose(lots, sizes, words)
    }
}

/// An instance of full size and one action.
pub fn full(lots: &mut Lots, sizes: &Sizes) -> Instance {
    let words = lots.dense(sizes.density);
    let action = lots.below(32) as u8;
    Instance {
        left: lots.step(action, sizes.size, 1_000_000),
        right: lots.step(action, sizes.size, 1_000_000),
        words,
    }
}
