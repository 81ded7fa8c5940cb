//! A page looked at in a real browser, by a screenshot.

use png::{BitDepth, ColorType};
use std::fs::{self, File};
use std::path::Path;
use std::process::Command;

const LINE: usize = 90;
const WIDTH: usize = 8 * LINE;
const HEIGHT: usize = 2 * 256;
/// The colour of marks, and how far from the picture they stand at most.
const SENT: [u8; 3] = [0xE8, 0x59, 0x0C];
const BESIDE: usize = 24;
/// What may stand above a picture, in pixels: texts, and no other picture.
const TEXTS: usize = 600;

/// A picture of 256 lines, and how many of them were sent.
pub struct Expected {
    pub picture: Vec<u8>,
    pub count: usize,
}

struct Shot {
    width: usize,
    height: usize,
    pixels: Vec<[u8; 3]>,
}

/// Opens a page and looks for the pictures, in order from top to bottom and dot for dot, and for the marks beside each.
pub fn looked_at(folder: &Path, html: &str, expected: &[Expected]) -> Result<(), String> {
    let shot = screenshot(folder, html)?;
    let mut below = 0;
    for (at, Expected { picture, count }) in expected.iter().enumerate() {
        let named = |error: String| format!("picture {}{error}", at + 1);
        let (x, y) = shot.find(picture, below).ok_or_else(|| named(format!(" is not there, from {below} on")))?;
        let marked = shot.marked(x, y).map_err(named)?;
        let found = marked.iter().filter(|marked| **marked).count();
        if found != *count {
            return Err(named(format!(": {found} lines are marked, and {count} were sent")));
        }
        let changed = |line: usize| {
            let lines = line * LINE..(line + 1) * LINE;
            at > 0 && expected[at - 1].picture[lines.clone()] != picture[lines]
        };
        if let Some(line) = (0..256).find(|line| changed(*line) && !marked[*line]) {
            return Err(named(format!(": line {line} has changed and is not marked")));
        }
        below = y + HEIGHT;
    }
    Ok(())
}

/// What chromium shows of a page, a dot of the page to a pixel.
fn screenshot(folder: &Path, html: &str) -> Result<Shot, String> {
    let (page, shot) = (folder.join("seen.html"), folder.join("seen.png"));
    let _ = fs::remove_file(&shot);
    fs::write(&page, html).expect("the page");
    let mut chromium = Command::new("timeout");
    chromium.args(["120", "chromium", "--headless", "--no-sandbox", "--disable-gpu", "--disable-dev-shm-usage"]);
    chromium.args(["--hide-scrollbars", "--force-device-scale-factor=1", "--force-color-profile=srgb"]);
    chromium.args(["--window-size=1000,6000", &format!("--screenshot={}", shot.display())]);
    chromium.arg(format!("--user-data-dir={}", folder.join("profile").display())).arg(&page).env("HOME", folder);
    let output = chromium.output().expect("timeout, of coreutils");
    let said = || String::from_utf8_lossy(&output.stderr).into_owned();
    let file = File::open(&shot).map_err(|error| format!("no screenshot: {error}: {}", said()))?;
    let mut reader = png::Decoder::new(file).read_info().expect("a PNG");
    let mut bytes = vec![0; reader.output_buffer_size()];
    let info = reader.next_frame(&mut bytes).expect("pixels");
    assert!(info.bit_depth == BitDepth::Eight && matches!(info.color_type, ColorType::Rgb | ColorType::Rgba));
    let pixels = bytes.chunks(info.color_type.samples()).map(|pixel| [pixel[0], pixel[1], pixel[2]]).collect();
    Ok(Shot { width: info.width as usize, height: info.height as usize, pixels })
}

impl Shot {
    fn at(&self, x: usize, y: usize) -> [u8; 3] {
        self.pixels[y * self.width + x]
    }

    /// Where a picture stands, from a height on: lit dots white, the others black, every line twice.
    fn find(&self, picture: &[u8], from: usize) -> Option<(usize, usize)> {
        let dot = |x: usize, y: usize| [if picture[y / 2 * LINE + x / 8] >> (7 - x % 8) & 1 == 1 { 255 } else { 0 }; 3];
        let stands =
            |left: usize, top: usize| (0..HEIGHT).all(|y| (0..WIDTH).all(|x| self.at(left + x, top + y) == dot(x, y)));
        let last = (from + TEXTS).min(self.height.saturating_sub(HEIGHT));
        let mut places = (from..=last).flat_map(|y| (0..=self.width - WIDTH).map(move |x| (x, y)));
        places.find(|(x, y)| stands(*x, *y))
    }

    /// Which lines of a picture are marked at its left.
    fn marked(&self, left: usize, top: usize) -> Result<Vec<bool>, String> {
        let row = |y: usize| (left.saturating_sub(BESIDE)..left).any(|x| self.at(x, top + y) == SENT);
        let rows: Vec<bool> = (0..HEIGHT).map(row).collect();
        match rows.chunks(2).position(|pair| pair[0] != pair[1]) {
            Some(line) => Err(format!(": half of line {line} is marked")),
            None => Ok(rows.chunks(2).map(|pair| pair[0]).collect()),
        }
    }
}

/// A picture as a page has it.
pub fn data_uri(picture: &[u8]) -> String {
    let mut bytes = Vec::new();
    let mut encoder = png::Encoder::new(&mut bytes, WIDTH as u32, HEIGHT as u32);
    encoder.set_color(ColorType::Grayscale);
    encoder.set_depth(BitDepth::One);
    let doubled: Vec<u8> = picture.chunks(LINE).flat_map(|line| [line, line].concat()).collect();
    encoder.write_header().expect("a header").write_image_data(&doubled).expect("pixels");
    let letters = b"ABCDEFGHIJKLMNOPQRSTUVWXYZabcdefghijklmnopqrstuvwxyz0123456789+/";
    // Bytes behind the end of a PNG do not matter, so none of the letters need be an equals sign.
    bytes.resize((bytes.len() + 2) / 3 * 3, 0);
    let four = |three: &[u8]| {
        let number = three.iter().fold(0, |number, byte| number << 8 | *byte as usize);
        [18, 12, 6, 0].map(|shift| letters[number >> shift & 63] as char)
    };
    "data:image/png;base64,".chars().chain(bytes.chunks(3).flat_map(four)).collect()
}
