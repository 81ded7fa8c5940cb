//! A refresh of the demo, and what it sent down the cable.

use joyce::{LINE_BYTES, PICTURE};

pub struct Refreshed {
    /// What happened since the refresh before.
    pub what: String,
    /// Why that sent as much as it did.
    pub why: &'static str,
    /// The lines that went down the cable, in order.
    pub lines: Vec<u8>,
    pub floating: bool,
    /// The whole picture afterwards.
    pub picture: Vec<u8>,
}

impl Refreshed {
    pub fn sent(&self) -> usize {
        self.lines.len() * LINE_BYTES
    }

    pub fn saved(&self) -> usize {
        PICTURE - self.sent()
    }

    pub fn sums(&self) -> String {
        let (count, sent, saved) = (self.lines.len(), self.sent(), self.saved());
        let aside = if self.floating { " (the video is floating)" } else { "" };
        format!("{count} lines, {sent} bytes down the cable, {saved} saved of {PICTURE}{aside}")
    }

    /// The lines as runs of neighbours, each with its first line and how many there are.
    pub fn runs(&self) -> Vec<(usize, usize)> {
        let mut runs: Vec<(usize, usize)> = Vec::new();
        for line in self.lines.iter().map(|&line| line as usize) {
            match runs.last_mut() {
                Some((first, count)) if *first + *count == line => *count += 1,
                _ => runs.push((line, 1)),
            }
        }
        runs
    }
}

#[cfg(test)]
mod tests {
    use super::*;

    #[test]
    fn neighbours_are_one_run() {
        let of = |lines: &[u8]| {
            let lines = lines.to_vec();
            Refreshed { what: String::new(), why: "", lines, floating: false, picture: Vec::new() }
        };
        assert_eq!(of(&[]).runs(), []);
        assert_eq!(of(&[0, 1, 2, 7, 254, 255]).runs(), [(0, 3), (7, 1), (254, 2)]);
        assert_eq!(of(&(0..=255).collect::<Vec<u8>>()).runs(), [(0, 256)]);
        assert_eq!(of(&[8, 9]).sums(), "2 lines, 180 bytes down the cable, 22860 saved of 23040");
    }
}
