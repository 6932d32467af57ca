//! Plans: their text, their certificate, the simplex method that finds them, and their cycles.
use crate::coterie::{members, Coterie};
use crate::narrow::Narrow;
use std::fmt::Write;

pub struct Plan {
    pub quorum_weights: Vec<u64>,
    pub voter_weights: Vec<u64>,
    /// How often one cycle names the busiest voter.
    busiest: u64,
    pub cycle: u64,
}

fn gcd(mut a: u128, mut b: u128) -> u128 {
    while b != 0 {
        (a, b) = (b, a % b);
    }
    a
}

fn numbers<'a>(line: &'a str, word: &str) -> Option<Vec<&'a str>> {
    let mut words = line.split(' ');
    (words.next() == Some(word)).then(|| words.collect())
}

fn write_list(text: &mut String, word: &str, list: &[u64]) {
    text.push_str(word);
    for number in list {
        let _ = write!(text, " {number}");
    }
    text.push('\n');
}

impl Plan {
    /// Checks that the weights are a certificate: m · S = t · D.
    pub fn check(coterie: &Coterie, quorum_weights: Vec<u64>, voter_weights: Vec<u64>) -> Option<Plan> {
        if quorum_weights.len() != coterie.quorums.len() || voter_weights.len() != coterie.names.len() {
            return None;
        }
        let cycle: u64 = quorum_weights.iter().sum();
        let voters: u64 = voter_weights.iter().sum();
        if cycle == 0 || cycle > 1_000_000 || voters == 0 || voters > 1_000_000 {
            return None;
        }
        let mut counts = vec![0; coterie.names.len()];
        let mut lightest = u64::MAX;
        for (quorum, weight) in coterie.quorums.iter().zip(&quorum_weights) {
            let mut within = 0;
            for voter in members(*quorum) {
                counts[voter] += weight;
                within += voter_weights[voter];
            }
            lightest = lightest.min(within);
        }
        let busiest = counts.into_iter().max()?;
        (busiest * voters == lightest * cycle).then_some(Plan {
            quorum_weights,
            voter_weights,
            busiest,
            cycle,
        })
    }

    pub fn load(&self) -> (u64, u64) {
        let common = gcd(self.busiest.into(), self.cycle.into()) as u64;
        (self.busiest / common, self.cycle / common)
    }

    pub fn read(coterie: &Coterie, text: &str) -> Option<Plan> {
        let lines: Vec<&str> = text.strip_suffix('\n')?.split('\n').collect();
        let [title, load, cycle, quorum, voter] = lines[..] else {
            return None;
        };
        let list = |line, word| -> Option<Vec<u64>> { numbers(line, word)?.into_iter().map(|n| n.parse().ok()).collect() };
        let plan = Plan::check(coterie, list(quorum, "quorum")?, list(voter, "voter")?)?;
        let (p, q) = plan.load();
        let same = title == "quorum-plan 1" && load == format!("load {p}/{q}") && cycle == format!("cycle {}", plan.cycle);
        same.then_some(plan)
    }

    pub fn write(&self) -> String {
        let (p, q) = self.load();
        let mut text = format!("quorum-plan 1\nload {p}/{q}\ncycle {}\n", self.cycle);
        write_list(&mut text, "quorum", &self.quorum_weights);
        write_list(&mut text, "voter", &self.voter_weights);
        text
    }

    /// The quorums of the tickets of one cycle: round r lists those of a weight above r.
    pub fn places(&self) -> Vec<usize> {
        let mut places = Vec::with_capacity(self.cycle as usize);
        let mut round = 0;
        while places.len() < self.cycle as usize {
            places.extend((0..self.quorum_weights.len()).filter(|j| self.quorum_weights[*j] > round));
            round += 1;
        }
        places
    }

    pub fn of(coterie: &Coterie) -> Option<Plan> {
        let even = Plan::check(coterie, vec![1; coterie.quorums.len()], vec![1; coterie.names.len()]);
        even.or_else(|| {
            let (mut quorum_weights, mut voter_weights) =
                Narrow::of(coterie).solve().or_else(|| Tableau::of(coterie).solve())?;
            divide(&mut quorum_weights);
            divide(&mut voter_weights);
            Plan::check(coterie, quorum_weights, voter_weights)
        })
    }
}

fn divide(weights: &mut [u64]) {
    let common = weights.iter().fold(0, |common, weight| gcd(common, u128::from(*weight))) as u64;
    if common > 1 {
        for weight in weights {
            *weight /= common;
        }
    }
}

/// The revised simplex method by Dantzig's rule, in whole numbers over one denominator: a row for each voter and one for the
/// objective. The columns are the voters' slacks, the right side, the unit, and the column that enters.
struct Tableau<'a> {
    coterie: &'a Coterie,
    voters: usize,
    rows: Vec<Vec<i128>>,
    den: i128,
    basis: Vec<usize>,
}

impl<'a> Tableau<'a> {
    fn of(coterie: &'a Coterie) -> Tableau<'a> {
        let voters = coterie.names.len();
        let mut rows = vec![vec![0; voters + 3]; voters + 1];
        for (voter, row) in rows.iter_mut().enumerate().take(voters) {
            row[voter] = 1;
            row[voters] = 1;
        }
        rows[voters][voters + 1] = 1;
        Tableau { coterie, voters, rows, den: 1, basis: (0..voters).map(|voter| coterie.quorums.len() + voter).collect() }
    }

    /// A row's entry in a column: first come the quorums', then the slacks'.
    fn sum(&self, row: usize, column: usize) -> Option<i128> {
        let row = &self.rows[row];
        match self.coterie.quorums.get(column) {
            None => Some(row[column - self.coterie.quorums.len()]),
            Some(quorum) => members(*quorum).try_fold(row[self.voters + 1], |sum: i128, voter| sum.checked_add(row[voter])),
        }
    }

    /// Whether a column entered; `None` if a number does not fit.
    fn step(&mut self, dantzig: bool, stalled: &mut usize) -> Option<bool> {
        let mut best = None;
        let mut most = 0;
        for column in 0..self.coterie.quorums.len() + self.voters {
            let price = self.sum(self.voters, column)?;
            if price > most {
                best = Some(column);
                most = price;
                if !dantzig {
                    break;
                }
            }
        }
        let Some(column) = best else {
            return Some(false);
        };
        for row in 0..=self.voters {
            let entry = self.sum(row, column)?;
            self.rows[row][self.voters + 2] = entry;
        }
        let mut exit: Option<(usize, i128, i128)> = None;
        for row in 0..self.voters {
            let (entry, right) = (self.rows[row][self.voters + 2], self.rows[row][self.voters]);
            if entry > 0 {
                let before = match exit {
                    None => true,
                    Some((other, e, r)) => {
                        let (own, its) = (right.checked_mul(e)?, r.checked_mul(entry)?);
                        own < its || own == its && self.basis[row] < self.basis[other]
                    }
                };
                if before {
                    exit = Some((row, entry, right));
                }
            }
        }
        let (row, entry, right) = exit?;
        self.pivot(row, entry)?;
        self.basis[row] = column;
        *stalled = if right == 0 { *stalled + 1 } else { 0 };
        Some(true)
    }

    fn pivot(&mut self, row: usize, entry: i128) -> Option<()> {
        let enters = self.voters + 2;
        let solved = self.rows[row].clone();
        let den = self.den.checked_mul(entry)?;
        let mut common = den.unsigned_abs();
        for (number, cells) in self.rows.iter_mut().enumerate() {
            let factor = cells[enters];
            for (cell, own) in cells.iter_mut().zip(&solved) {
                *cell = if number == row {
                    cell.checked_mul(self.den)?
                } else {
                    cell.checked_mul(entry)?.checked_sub(factor.checked_mul(*own)?)?
                };
                if common != 1 {
                    common = gcd(cell.unsigned_abs(), common);
                }
            }
        }
        let common = common as i128;
        if common > 1 {
            for cell in self.rows.iter_mut().flatten() {
                *cell /= common;
            }
        }
        self.den = den / common;
        Some(())
    }

    fn solve(mut self) -> Option<(Vec<u64>, Vec<u64>)> {
        let mut stalled = 0;
        for _ in 0..10_000 {
            let dantzig = stalled < 2 * self.voters;
            if !self.step(dantzig, &mut stalled)? {
                break;
            }
        }
        let mut quorums = vec![0; self.coterie.quorums.len()];
        for row in 0..self.voters {
            if let Some(weight) = quorums.get_mut(self.basis[row]) {
                *weight = u64::try_from(self.rows[row][self.voters]).ok()?;
            }
        }
        let prices = &self.rows[self.voters][..self.voters];
        let voters = prices.iter().map(|price| u64::try_from(-price).ok()).collect::<Option<_>>()?;
        Some((quorums, voters))
    }
}
