//! A small look at a picture on the terminal, in braille.

use super::out::Out;
use super::terminal;
use joyce::LINE_BYTES;

const WIDTH: usize = 8 * LINE_BYTES;
/// Columns of the largest look. A dot has 3 x 2 pixels then, as a pixel of the monitor is twice as high as wide.
const COLUMNS: usize = 120;
/// Lines to a row, in as many columns.
const ROW_LINES: usize = 8;
/// Bit of each dot of a braille cell, row by row.
const DOTS: [[u32; 2]; 4] = [[0x01, 0x08], [0x02, 0x10], [0x04, 0x20], [0x40, 0x80]];

/// A pixel or line that a dot covers, and how much of it.
type Covered = Vec<(usize, usize)>;

/// What each dot of a row of dots covers of a row of pixels, in parts of which a dot has `pixels`.
fn covered(pixels: usize, dots: usize) -> Vec<Covered> {
    let of_dot = |dot: usize| {
        let (from, end) = (dot * pixels, (dot + 1) * pixels);
        let touched = from / dots..(end + dots - 1) / dots;
        touched.map(|pixel| (pixel, end.min((pixel + 1) * dots) - from.max(pixel * dots))).collect()
    };
    (0..dots).map(of_dot).collect()
}

fn lit(picture: &[u8], x: usize, y: usize) -> bool {
    picture[y * LINE_BYTES + x / 8] >> (7 - x % 8) & 1 == 1
}

/// A dot is set if at least a third of its area is lit.
fn dot(picture: &[u8], across: &Covered, down: &Covered) -> bool {
    let lit_in = |y: usize| -> usize { across.iter().filter(|(x, _)| lit(picture, *x, y)).map(|(_, part)| part).sum() };
    let lit: usize = down.iter().map(|(y, part)| part * lit_in(*y)).sum();
    3 * lit >= WIDTH * (picture.len() / LINE_BYTES)
}

fn cell(picture: &[u8], across: &[Covered], down: &[Covered]) -> char {
    let mut bits = 0;
    for (row, pair) in DOTS.iter().enumerate() {
        for (column, bit) in pair.iter().enumerate() {
            if dot(picture, &across[column], &down[row]) {
                bits |= bit;
            }
        }
    }
    char::from_u32(0x2800 + bits).expect("a braille cell")
}

/// The picture in 120 columns and 32 rows (of 200 lines, 25), or in fewer columns, and rows in proportion.
pub fn preview(picture: &[u8], columns: usize) -> String {
    let columns = columns.clamp(1, COLUMNS);
    let lines = picture.len() / LINE_BYTES;
    let whole = ROW_LINES * COLUMNS;
    let rows = (lines * columns + whole / 2) / whole;
    let (across, down) = (covered(WIDTH, 2 * columns), covered(lines, 4 * rows.max(1)));
    let mut text = String::new();
    for down in down.chunks(4) {
        let line: String = across.chunks(2).map(|across| cell(picture, across, down)).collect();
        text.push_str(line.trim_end_matches('\u{2800}'));
        text.push('\n');
    }
    text
}

/// Writes the picture as wide as there is room; where that is not known, as into a file, at its largest.
pub fn write(out: Out, picture: &[u8]) -> Result<(), String> {
    out.write(&preview(picture, terminal::columns(out).unwrap_or(COLUMNS)))
}

#[cfg(test)]
mod tests {
    use super::*;
    use joyce::PICTURE;

    /// Some pixels, no two rows of dots the same.
    fn picture(lines: usize) -> Vec<u8> {
        (0..lines * LINE_BYTES).map(|at| (at * at / 7 + at / 90) as u8).collect()
    }

    /// The dots of the largest look, counted pixel by pixel.
    fn largest(picture: &[u8]) -> String {
        let dot = |x: usize, y: usize| {
            let pixels = (0..6).filter(|at| lit(picture, 3 * x + at % 3, 2 * y + at / 3));
            pixels.count() >= 2
        };
        let cell = |column: usize, row: usize| {
            let bits = (0..8).filter(|at| dot(2 * column + at % 2, 4 * row + at / 2)).map(|at| DOTS[at / 2][at % 2]);
            char::from_u32(0x2800 + bits.sum::<u32>()).expect("a cell")
        };
        let row = |row| (0..120).map(|column| cell(column, row)).collect::<String>();
        let rows = picture.len() / LINE_BYTES / 8;
        (0..rows).map(|at| row(at).trim_end_matches('\u{2800}').to_string() + "\n").collect()
    }

    #[test]
    fn at_its_largest_each_dot_has_six_pixels() {
        for lines in [200, 256] {
            let picture = picture(lines);
            for columns in [120, 121, 300, usize::MAX] {
                assert_eq!(preview(&picture, columns), largest(&picture));
            }
        }
    }

    #[test]
    fn any_width_is_filled_in_proportion() {
        for (lines, columns) in [200, 256].into_iter().flat_map(|lines| (0..=120).map(move |columns| (lines, columns)))
        {
            let text = preview(&vec![0xFF; lines * LINE_BYTES], columns);
            let rows: Vec<&str> = text.lines().collect();
            assert!(rows.iter().all(|row| row.chars().count() == columns.max(1)), "{columns}");
            assert!(text.chars().all(|cell| cell == '\u{28FF}' || cell == '\n'));
            let right = lines as f64 * columns as f64 / 960.0;
            assert!((rows.len() as f64 - right).abs() <= 0.5 || rows.len() == 1, "{columns}");
            assert_eq!(preview(&vec![0; lines * LINE_BYTES], columns), "\n".repeat(rows.len()));
        }
    }

    /// A dot that covers parts of pixels counts just those parts.
    #[test]
    fn parts_are_counted() {
        for (pixels, dots) in [(720, 2), (720, 14), (256, 44), (200, 100), (1, 3)] {
            let covered = covered(pixels, dots);
            let whole = |covered: &Covered| covered.iter().map(|(_, part)| part).sum::<usize>();
            assert!(covered.iter().all(|dot| whole(dot) == pixels), "{pixels} in {dots}");
            for pixel in 0..pixels {
                let parts = covered.iter().flatten().filter(|(at, _)| *at == pixel).map(|(_, part)| part);
                assert_eq!(parts.sum::<usize>(), dots);
            }
        }
        // The left third is lit, but for one pixel in the second picture.
        let mut picture: Vec<u8> = (0..PICTURE).map(|at| if at % LINE_BYTES < 30 { 0xFF } else { 0 }).collect();
        let dots = |picture: &[u8]| dot(picture, &covered(720, 1)[0], &covered(256, 1)[0]);
        assert!(dots(&picture));
        picture[0] = 0x7F;
        assert!(!dots(&picture));
    }
}
