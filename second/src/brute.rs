//! The answer by the definition: every set of left targets is weighed against what it stands to.

use crate::instance::{Answer, Branch, Instance};

/// The most branches a side, since every set of them is tried.
const MOST: usize = 10;

/// The branches of a set, given as bits.
fn members(branches: &[Branch], set: u32) -> impl Iterator<Item = &Branch> {
    let numbered = branches.iter().enumerate();
    numbered
        .filter(move |(place, _)| set >> place & 1 == 1)
        .map(|(_, branch)| branch)
}

/// How much more a set of left branches weighs than what it stands to, each side times the other's total.
fn surplus(instance: &Instance, set: u32) -> u128 {
    let (left, right) = (&instance.left, &instance.right);
    let stands_to =
        |v: &&Branch| members(&left.branches, set).any(|u| instance.related(u.target, v.target));
    let image = right.branches.iter().filter(stands_to);
    let mass: u128 = members(&left.branches, set)
        .map(|u| u128::from(u.weight))
        .sum();
    let image_mass: u128 = image.map(|v| u128::from(v.weight)).sum();
    (mass * u128::from(right.total())).saturating_sub(image_mass * u128::from(left.total()))
}

/// The answer, if the left step is small enough.
pub fn solve(instance: &Instance) -> Result<Answer, String> {
    if instance.left.branches.len() > MOST {
        return Err(format!(
            "more than {MOST} branches: too many to try every set"
        ));
    }
    Ok(weigh_all(instance))
}

fn weigh_all(instance: &Instance) -> Answer {
    let branches = &instance.left.branches;
    if instance.left.action != instance.right.action {
        return Answer::Apart;
    }
    let mut most = 0;
    let mut in_all = 0;
    for set in 0..1 << branches.len() {
        let surplus = surplus(instance, set);
        if surplus > most {
            most = surplus;
            in_all = set;
        } else if surplus == most {
            in_all &= set;
        }
    }
    if most == 0 {
        return Answer::Matched;
    }
    Answer::Cut(
        members(branches, in_all)
            .map(|branch| branch.target)
            .collect(),
    )
}
