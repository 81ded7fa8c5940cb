//! What was measured, as text.

use super::{BOX, MOST};
use std::fmt::Write;

/// The most bytes that a call of a function uses, and of those its scenes do.
pub struct Row {
    pub name: &'static str,
    pub used: usize,
    pub scenes: Vec<(&'static str, usize)>,
}

/// Whether no function uses more than a call may.
pub fn within(rows: &[Row], limit: usize) -> bool {
    rows.iter().all(|row| row.used <= limit)
}

pub fn text(rows: &[Row], limit: usize) -> String {
    let mut text = String::from("bytes of stack that a call uses, with its return address and stacked arguments\n");
    for row in rows {
        text.push_str(&line(row.name, row.used, limit));
        for (name, used) in &row.scenes {
            text.push_str(&line(&format!("  {name}"), *used, limit));
        }
    }
    let of = if limit == MOST { format!(" of the box's {BOX}") } else { String::new() };
    let done = writeln!(text, "{}; a call may use {limit}{of}", deepest(rows));
    done.expect("writing to a string cannot fail");
    if !within(rows, limit) {
        let over: Vec<&str> = rows.iter().filter(|row| row.used > limit).map(|row| row.name).collect();
        let done = writeln!(text, "over what a call may use: {}", over.join(", "));
        done.expect("writing to a string cannot fail");
    }
    text
}

fn line(name: &str, used: usize, limit: usize) -> String {
    let over = if used > limit { "  over" } else { "" };
    format!("{name:<46}{used:>6}{over}\n")
}

/// The row that uses most, with its scene if one uses as much.
fn deepest(rows: &[Row]) -> String {
    let used = rows.iter().map(|row| row.used).max().unwrap_or(0);
    let row = rows.iter().find(|row| row.used == used).map_or("", |row| row.name);
    let mut scenes = rows.iter().filter(|row| row.used == used).flat_map(|row| &row.scenes);
    match scenes.find(|scene| scene.1 == used) {
        Some((scene, _)) => format!("most: {used} bytes ({row}: {scene})"),
        None => format!("most: {used} bytes ({row})"),
    }
}

#[cfg(test)]
mod tests {
    use super::*;

    fn rows(step: usize) -> Vec<Row> {
        let scenes = vec![("fetch", 240), ("write that alters a shown byte", 824)];
        vec![Row { name: "joyce_version", used: 8, scenes: Vec::new() }, Row { name: "joyce_step", used: step, scenes }]
    }

    #[test]
    fn all_within() {
        let expected = "\
bytes of stack that a call uses, with its return address and stacked arguments
joyce_version                                      8
joyce_step                                       824
  fetch                                          240
  write that alters a shown byte                 824
most: 824 bytes (joyce_step: write that alters a shown byte); a call may use 1024 of the box's 2048
";
        assert_eq!(text(&rows(824), MOST), expected);
        assert!(within(&rows(824), MOST) && within(&rows(824), 824));
    }

    #[test]
    fn what_is_over_is_marked() {
        let expected = "\
bytes of stack that a call uses, with its return address and stacked arguments
joyce_version                                      8
joyce_step                                       900  over
  fetch                                          240
  write that alters a shown byte                 824  over
most: 900 bytes (joyce_step); a call may use 823
over what a call may use: joyce_step
";
        assert_eq!(text(&rows(900), 823), expected);
        assert!(!within(&rows(900), 823));
    }
}
