//! Two lists laid beside each other, so that as much as possible of one stands beside the same in the other.

/// How well two items go together.
#[derive(Clone, Copy, Debug, PartialEq, Eq)]
pub enum Likeness {
    Same,
    /// the same but for numbers
    Alike,
    Other,
}

impl Likeness {
    /// Two that are the same count more than two pairs that are alike.
    fn weight(self) -> u32 {
        match self {
            Likeness::Same => 3,
            Likeness::Alike => 1,
            Likeness::Other => 0,
        }
    }
}

/// A step through both lists: an item of each, or one that the other list does not have.
#[derive(Clone, Copy, Debug, PartialEq, Eq)]
pub enum Step {
    Both(usize, usize),
    Old(usize),
    New(usize),
}

/// The steps through lists of these lengths in which the pairs have the most weight together.
pub fn align(old: usize, new: usize, likeness: impl Fn(usize, usize) -> Likeness) -> Vec<Step> {
    let same = |o: usize, n: usize| likeness(o, n) == Likeness::Same;
    let front = (0..old.min(new)).take_while(|&n| same(n, n)).count();
    let back = (0..old.min(new) - front).take_while(|&n| same(old - 1 - n, new - 1 - n)).count();
    let (rows, columns) = (old - front - back, new - front - back);
    // For each pair of fronts the weight of its best steps, and for the way back which step came last: 0 both, 1 old, 2 new.
    let mut last = vec![0u8; rows * columns];
    let mut above = vec![0u32; columns + 1];
    for o in 0..rows {
        let mut diagonal = 0;
        let mut left = 0;
        for n in 0..columns {
            let weight = likeness(front + o, front + n).weight();
            let (both, up) = (diagonal + weight, above[n + 1]);
            let (best, step) = match weight {
                1.. if both >= up.max(left) => (both, 0),
                _ if up >= left => (up, 1),
                _ => (left, 2),
            };
            last[o * columns + n] = step;
            diagonal = above[n + 1];
            above[n + 1] = best;
            left = best;
        }
    }
    let mut middle = Vec::new();
    let (mut o, mut n) = (rows, columns);
    while o > 0 || n > 0 {
        let step = match (o, n) {
            (0, _) => 2,
            (_, 0) => 1,
            _ => last[(o - 1) * columns + n - 1],
        };
        middle.push(match step {
            0 => Step::Both(front + o - 1, front + n - 1),
            1 => Step::Old(front + o - 1),
            _ => Step::New(front + n - 1),
        });
        o -= usize::from(step != 2);
        n -= usize::from(step != 1);
    }
    let fronts = (0..front).map(|n| Step::Both(n, n));
    let backs = (0..back).rev().map(|n| Step::Both(old - 1 - n, new - 1 - n));
    replaced(fronts.chain(middle.into_iter().rev()).chain(backs))
}

/// Where as many items come as go, between two pairs, each takes the place of one.
fn replaced(steps: impl Iterator<Item = Step>) -> Vec<Step> {
    let (mut all, mut gone, mut come) = (Vec::new(), Vec::new(), Vec::new());
    let mut close = |gone: &mut Vec<usize>, come: &mut Vec<usize>, pair: Option<Step>| {
        if gone.len() == come.len() {
            all.extend(gone.drain(..).zip(come.drain(..)).map(|(o, n)| Step::Both(o, n)));
        }
        all.extend(gone.drain(..).map(Step::Old).chain(come.drain(..).map(Step::New)).chain(pair));
    };
    for step in steps {
        match step {
            Step::Old(o) => gone.push(o),
            Step::New(n) => come.push(n),
            Step::Both(..) => close(&mut gone, &mut come, Some(step)),
        }
    }
    close(&mut gone, &mut come, None);
    all
}
