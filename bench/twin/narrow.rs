//! The simplex method of `plan.rs` in 64 bits: by fraction-free elimination, where each new entry is divided by the old
//! denominator. The division is a multiplication by an inverse.
use crate::coterie::{members, Coterie};

/// A bound on the entries after a pivot.
const LIMIT: i64 = 1 << 56;

/// The tableau, in rows of equal width. The columns are the voters' slacks, the right side, the unit, and the column that
/// enters.
pub struct Narrow {
    quorums: usize,
    voters: usize,
    cells: Vec<i64>,
    room: Vec<i64>,
    den: i64,
    basis: Vec<usize>,
    /// The columns whose sum each column is.
    columns: Vec<Vec<usize>>,
}

fn inverse(odd: i64) -> i64 {
    let mut inverse = odd.wrapping_mul(3) ^ 2;
    for _ in 0..4 {
        inverse = inverse.wrapping_mul(2i64.wrapping_sub(odd.wrapping_mul(inverse)));
    }
    inverse
}

fn sum(row: &[i64], columns: &[usize]) -> i64 {
    columns.iter().map(|column| row[*column]).sum()
}

impl Narrow {
    pub fn of(coterie: &Coterie) -> Narrow {
        let voters = coterie.names.len();
        let width = voters + 3;
        let mut cells = vec![0; (voters + 1) * width];
        for voter in 0..voters {
            cells[voter * width + voter] = 1;
            cells[voter * width + voters] = 1;
        }
        cells[voters * width + voters + 1] = 1;
        let of_quorum = |quorum: &u64| members(*quorum).chain([voters + 1]).collect();
        let quorums = coterie.quorums.len();
        Narrow {
            quorums,
            voters,
            room: cells.clone(),
            cells,
            den: 1,
            basis: (quorums..quorums + voters).collect(),
            columns: coterie.quorums.iter().map(of_quorum).chain((0..voters).map(|voter| vec![voter])).collect(),
        }
    }

    fn row(&self, row: usize) -> &[i64] {
        let width = self.voters + 3;
        &self.cells[row * width..(row + 1) * width]
    }

    fn entering(&self, bland: bool) -> Option<usize> {
        let prices = self.row(self.voters);
        let (mut best, mut most) = (None, 0);
        for (column, list) in self.columns.iter().enumerate() {
            let price = sum(prices, list);
            if price > most {
                (best, most) = (Some(column), price);
                if bland {
                    break;
                }
            }
        }
        best
    }

    fn leaving(&self) -> Option<(usize, i64, i64)> {
        let mut exit: Option<(usize, i64, i64)> = None;
        for row in 0..self.voters {
            let cells = self.row(row);
            let (entry, right) = (cells[self.voters + 2], cells[self.voters]);
            let before = |(other, e, r): (usize, i64, i64)| {
                let (own, its) = (i128::from(right) * i128::from(e), i128::from(r) * i128::from(entry));
                own < its || own == its && self.basis[row] < self.basis[other]
            };
            if entry > 0 && exit.map_or(true, before) {
                exit = Some((row, entry, right));
            }
        }
        exit
    }

    /// Whether all numbers fit.
    fn pivot(&mut self, row: usize, entry: i64) -> bool {
        let width = self.voters + 3;
        let twos = self.den.trailing_zeros();
        let inverse = inverse(self.den >> twos);
        let solved = &self.cells[row * width..(row + 1) * width];
        let mut fits = true;
        for (i, (own, room)) in self.cells.chunks_exact(width).zip(self.room.chunks_exact_mut(width)).enumerate() {
            if i == row {
                room.copy_from_slice(own);
                continue;
            }
            let taken = own[width - 1];
            for ((room, cell), other) in room.iter_mut().zip(own).zip(solved) {
                let number = i128::from(*cell) * i128::from(entry) - i128::from(taken) * i128::from(*other);
                let quotient = ((number >> twos) as i64).wrapping_mul(inverse);
                fits &= (-LIMIT..LIMIT).contains(&quotient) & (i128::from(quotient) * i128::from(self.den) == number);
                *room = quotient;
            }
        }
        std::mem::swap(&mut self.cells, &mut self.room);
        self.den = entry;
        fits
    }

    /// The weights of the quorums and of the voters; `None` if a number does not fit.
    pub fn solve(mut self) -> Option<(Vec<u64>, Vec<u64>)> {
        let mut stalled = 0;
        for _ in 0..10_000 {
            let Some(column) = self.entering(stalled >= 2 * self.voters) else {
                break;
            };
            for row in self.cells.chunks_exact_mut(self.voters + 3) {
                row[self.voters + 2] = sum(row, &self.columns[column]);
            }
            let (row, entry, right) = self.leaving()?;
            if !self.pivot(row, entry) {
                return None;
            }
            self.basis[row] = column;
            stalled = if right == 0 { stalled + 1 } else { 0 };
        }
        let mut quorums = vec![0; self.quorums];
        for row in 0..self.voters {
            if let Some(weight) = quorums.get_mut(self.basis[row]) {
                *weight = u64::try_from(self.row(row)[self.voters]).ok()?;
            }
        }
        let prices = &self.row(self.voters)[..self.voters];
        let voters = prices.iter().map(|price| u64::try_from(-price).ok()).collect::<Option<_>>()?;
        Some((quorums, voters))
    }
}
