//! The answer by a maximum flow: each left branch has its weight times the right total to send, each right branch has room for
//! its weight times the left total, and only related branches may send to one another.

use crate::instance::{Answer, Instance};

struct Network {
    /// How many branches stand on the left and on the right.
    left: usize,
    right: usize,
    related: [[bool; 64]; 64],
    sent: [[u64; 64]; 64],
    unsent: [u64; 64],
    room: [u64; 64],
}

/// The branches that a search has come to, and on which way.
#[derive(Default)]
struct Search {
    left: Side,
    right: Side,
}

/// The branches of one side: which have been come to, and from which branch of the other side each of them.
struct Side {
    seen: [bool; 64],
    from: [Option<usize>; 64],
}

impl Default for Side {
    fn default() -> Side {
        Side {
            seen: [false; 64],
            from: [None; 64],
        }
    }
}

impl Side {
    /// Comes to a branch, unless the search was there before.
    fn enter(&mut self, branch: usize, from: Option<usize>) -> bool {
        let new = !self.seen[branch];
        if new {
            self.seen[branch] = true;
            self.from[branch] = from;
        }
        new
    }
}

impl Network {
    fn new(instance: &Instance) -> Network {
        let (left, right) = (&instance.left, &instance.right);
        let mut network = Network {
            left: left.branches.len(),
            right: right.branches.len(),
            related: [[false; 64]; 64],
            sent: [[0; 64]; 64],
            unsent: [0; 64],
            room: [0; 64],
        };
        for (v, to) in right.branches.iter().enumerate() {
            network.room[v] = u64::from(to.weight) * left.total();
        }
        for (u, from) in left.branches.iter().enumerate() {
            network.unsent[u] = u64::from(from.weight) * right.total();
            for (v, to) in right.branches.iter().enumerate() {
                network.related[u][v] = instance.related(from.target, to.target);
            }
        }
        network
    }

    /// Goes on from a left branch to a right one with room for `least`: to a related one, or by way of what is sent there.
    fn visit(&self, search: &mut Search, u: usize, least: u64) -> Option<usize> {
        for v in 0..self.right {
            if !self.related[u][v] || !search.right.enter(v, Some(u)) {
                continue;
            }
            if self.room[v] >= least {
                return Some(v);
            }
            for w in 0..self.left {
                if self.sent[w][v] >= least && search.left.enter(w, Some(v)) {
                    let end = self.visit(search, w, least);
                    if end.is_some() {
                        return end;
                    }
                }
            }
        }
        None
    }

    /// Looks for a path that bears `least`, from a left branch that has as much to send to a right one with room for it.
    fn path(&self, search: &mut Search, least: u64) -> Option<usize> {
        (0..self.left).find_map(|u| {
            let starts = self.unsent[u] >= least && search.left.enter(u, None);
            starts.then(|| self.visit(search, u, least)).flatten()
        })
    }

    /// Sends along the path that ends in a right branch. On the way back each left branch turns to that branch what it sends to
    /// the one before, as much as there is room for; the first sends what it has left.
    fn send(&mut self, search: &Search, mut end: usize) {
        while let Some(u) = search.right.from[end] {
            let before = search.left.from[u];
            let has = match before {
                Some(v) => &mut self.sent[u][v],
                None => &mut self.unsent[u],
            };
            let amount = self.room[end].min(*has);
            *has -= amount;
            self.room[end] -= amount;
            self.sent[u][end] += amount;
            let Some(v) = before else { return };
            self.room[v] += amount;
            end = v;
        }
    }

    /// Sends as much as can be sent: first along paths that bear as much as any branch has to send, then half of that, down to
    /// 1. Gives back what the last search has come to.
    fn fill(&mut self) -> Search {
        let mut least = self.unsent.into_iter().max().unwrap_or(0).max(1);
        loop {
            let mut search = Search::default();
            match self.path(&mut search, least) {
                Some(end) => self.send(&search, end),
                None if least == 1 => return search,
                None => least /= 2,
            }
        }
    }
}

pub fn solve(instance: &Instance) -> Answer {
    if instance.left.action != instance.right.action {
        return Answer::Apart;
    }
    let mut network = Network::new(instance);
    let search = network.fill();
    if network.unsent.iter().all(|unsent| *unsent == 0) {
        return Answer::Matched;
    }
    let branches = instance.left.branches.iter().zip(search.left.seen);
    Answer::Cut(
        branches
            .filter(|(_, seen)| *seen)
            .map(|(branch, _)| branch.target)
            .collect(),
    )
}
