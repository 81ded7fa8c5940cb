//! Sets of lines made and combined.

use joyce::Lines;

pub trait LineSets: Sized {
    /// The first `count` lines.
    fn first(count: usize) -> Self;

    fn single(line: u8) -> Self;

    fn or(&self, other: &Self) -> Self;

    fn and(&self, other: &Self) -> Self;

    /// Line L of the result is line (L + by) mod 256 of this.
    fn rolled_down(&self, by: u8) -> Self;

    /// The first line at or after `from` that is in the set.
    fn next_from(&self, from: u8) -> Option<u8>;
}

impl LineSets for Lines {
    fn first(count: usize) -> Lines {
        let mut words = [0; 4];
        for (index, word) in words.iter_mut().enumerate() {
            let below = count.saturating_sub(index * 64).min(64);
            *word = if below == 64 { !0 } else { (1 << below) - 1 };
        }
        Lines { words }
    }

    fn single(line: u8) -> Lines {
        let mut lines = Lines::default();
        lines.words[line as usize / 64] = 1 << (line % 64);
        lines
    }

    fn or(&self, other: &Lines) -> Lines {
        zip(self, other, |a, b| a | b)
    }

    fn and(&self, other: &Lines) -> Lines {
        zip(self, other, |a, b| a & b)
    }

    fn rolled_down(&self, by: u8) -> Lines {
        let (skip, bits) = (by as usize / 64, by as u32 % 64);
        let word = |index: usize| self.words[(index + skip) % 4];
        let mut words = [0; 4];
        for (index, out) in words.iter_mut().enumerate() {
            let pair = word(index) as u128 | (word(index + 1) as u128) << 64;
            *out = (pair >> bits) as u64;
        }
        Lines { words }
    }

    fn next_from(&self, from: u8) -> Option<u8> {
        let start = from as usize / 64;
        let kept = self.words[start] & (!0 << (from % 64));
        if kept != 0 {
            return Some((start * 64) as u8 + kept.trailing_zeros() as u8);
        }
        (start + 1..4)
            .find(|&index| self.words[index] != 0)
            .map(|index| (index * 64) as u8 + self.words[index].trailing_zeros() as u8)
    }
}

fn zip(a: &Lines, b: &Lines, with: impl Fn(u64, u64) -> u64) -> Lines {
    let mut words = [0; 4];
    for (index, word) in words.iter_mut().enumerate() {
        *word = with(a.words[index], b.words[index]);
    }
    Lines { words }
}
