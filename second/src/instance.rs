//! Two steps and a relation, as bytes and in memory, and what is answered of them.

use std::fmt;
use std::io::{self, Write};

/// The largest total of a step.
pub const MOST_TOTAL: u64 = 1_000_000_000;

#[derive(Clone, Copy)]
pub struct Branch {
    pub target: u8,
    pub weight: u32,
}

pub struct Step {
    pub action: u8,
    pub branches: Vec<Branch>,
}

pub struct Instance {
    pub left: Step,
    pub right: Step,
    /// Bit v of word u says that u stands to v.
    pub words: [u64; 64],
}

pub enum Answer {
    Matched,
    Apart,
    /// The targets of the cut, rising.
    Cut(Vec<u8>),
}

impl Step {
    pub fn total(&self) -> u64 {
        self.branches
            .iter()
            .map(|branch| u64::from(branch.weight))
            .sum()
    }

    fn write(&self, out: &mut impl Write) -> io::Result<()> {
        out.write_all(&[self.action, self.branches.len() as u8])?;
        for branch in &self.branches {
            out.write_all(&[branch.target])?;
            out.write_all(&branch.weight.to_be_bytes())?;
        }
        Ok(())
    }
}

impl Instance {
    pub fn related(&self, u: u8, v: u8) -> bool {
        (self.words[usize::from(u)] >> v) & 1 == 1
    }

    pub fn write(&self, out: &mut impl Write) -> io::Result<()> {
        self.left.write(out)?;
        self.right.write(out)?;
        self.words
            .iter()
            .try_for_each(|word| out.write_all(&word.to_be_bytes()))
    }
}

/// What is left to read.
struct Bytes<'a>(&'a [u8]);

impl Bytes<'_> {
    fn take<const N: usize>(&mut self) -> Result<[u8; N], String> {
        let (first, rest) = self
            .0
            .split_first_chunk()
            .ok_or("the instances end too early")?;
        self.0 = rest;
        Ok(*first)
    }

    fn step(&mut self) -> Result<Step, String> {
        let [action, count] = self.take()?;
        let mut step = Step {
            action,
            branches: Vec::new(),
        };
        for _ in 0..count {
            let [target, a, b, c, d] = self.take()?;
            let weight = u32::from_be_bytes([a, b, c, d]);
            let rises = step.branches.last().is_none_or(|last| last.target < target);
            if target >= 64 || weight == 0 || !rises {
                return Err(format!(
                    "a branch to {target} of weight {weight} may not stand here"
                ));
            }
            step.branches.push(Branch { target, weight });
            if step.total() > MOST_TOTAL {
                return Err("a step's total is too large".to_string());
            }
        }
        Ok(step)
    }

    fn instance(&mut self) -> Result<Instance, String> {
        let left = self.step()?;
        let right = self.step()?;
        let mut words = [0; 64];
        for word in &mut words {
            *word = u64::from_be_bytes(self.take()?);
        }
        Ok(Instance { left, right, words })
    }
}

pub fn read_all(bytes: &[u8]) -> Result<Vec<Instance>, String> {
    let mut bytes = Bytes(bytes);
    let mut instances = Vec::new();
    while !bytes.0.is_empty() {
        instances.push(bytes.instance()?);
    }
    Ok(instances)
}

impl fmt::Display for Answer {
    fn fmt(&self, out: &mut fmt::Formatter) -> fmt::Result {
        match self {
            Answer::Matched => write!(out, "matched"),
            Answer::Apart => write!(out, "apart"),
            Answer::Cut(targets) => {
                write!(out, "cut")?;
                targets
                    .iter()
                    .try_for_each(|target| write!(out, " {target}"))
            }
        }
    }
}
