//! Pictures as a person sees them, in PNG: lit pixels white on black, and every line twice, as a pixel of the monitor
//! is twice as high as wide.

use ::png::{BitDepth, ColorType, Compression, Decoder, Encoder, Info};
use joyce::{LINES, LINE_BYTES};

const WIDTH: u32 = 720;
/// Heights of pictures of 256 and of 200 lines.
const HEIGHTS: [u32; 2] = [2 * LINES as u32, 400];
const SIGNATURE: &[u8] = b"\x89PNG\r\n\x1A\n";
/// The chunk that every PNG ends with.
const END: &[u8] = b"\0\0\0\0IEND\xAE\x42\x60\x82";

/// Whether bytes are meant as a PNG.
pub fn is_png(bytes: &[u8]) -> bool {
    bytes.starts_with(SIGNATURE)
}

pub fn encode(lines: &[u8]) -> Vec<u8> {
    let doubled: Vec<u8> = lines.chunks(LINE_BYTES).flat_map(|line| [line, line].concat()).collect();
    let mut bytes = Vec::new();
    let mut encoder = Encoder::new(&mut bytes, WIDTH, (doubled.len() / LINE_BYTES) as u32);
    encoder.set_color(ColorType::Grayscale);
    encoder.set_depth(BitDepth::One);
    encoder.set_compression(Compression::Best);
    let written = encoder.write_header().and_then(|mut writer| {
        writer.write_image_data(&doubled)?;
        writer.finish()
    });
    written.expect("writing to memory cannot fail");
    bytes
}

/// The 200 or 256 lines of a PNG as it is written here; of any other, what is wrong.
pub fn decode(bytes: &[u8]) -> Result<Vec<u8>, String> {
    let broken = |error| format!("a broken PNG: {error}");
    if !bytes.ends_with(END) {
        return Err("a broken PNG: its end is missing, or more is behind it".to_string());
    }
    let mut decoder = Decoder::new(bytes);
    right_form(decoder.read_header_info().map_err(broken)?)?;
    let mut reader = decoder.read_info().map_err(broken)?;
    if reader.info().animation_control().is_some() {
        return Err("a PNG of several pictures".to_string());
    }
    let mut doubled = vec![0; reader.output_buffer_size()];
    reader.next_frame(&mut doubled).map_err(broken)?;
    let pairs = || doubled.chunks(2 * LINE_BYTES).map(|pair| pair.split_at(LINE_BYTES));
    if let Some(line) = pairs().position(|(line, again)| line != again) {
        let (first, second) = (2 * line, 2 * line + 1);
        return Err(format!("a PNG whose lines {first} and {second} differ; joyce writes every line twice"));
    }
    Ok(pairs().flat_map(|(line, _)| line).copied().collect())
}

fn right_form(info: &Info) -> Result<(), String> {
    let Info { width, height, color_type, bit_depth, .. } = info;
    if (*color_type, *bit_depth) != (ColorType::Grayscale, BitDepth::One) {
        let colour = format!("{color_type:?}").to_lowercase();
        return Err(format!("a PNG of {}-bit {colour}, not of 1-bit grayscale", *bit_depth as u8));
    }
    if *width != WIDTH || !HEIGHTS.contains(height) {
        let [most, fewer] = HEIGHTS;
        return Err(format!("a PNG of {width} x {height}, not {WIDTH} x {most} or {WIDTH} x {fewer}"));
    }
    Ok(())
}

#[cfg(test)]
mod tests {
    use super::*;
    use joyce::PICTURE;

    fn picture(bytes: usize) -> Vec<u8> {
        (0..bytes).map(|at| (at * at / 5 + at / 90) as u8).collect()
    }

    /// A PNG of any form, with the bytes of its pixels.
    fn other(width: u32, height: u32, color: ColorType, depth: BitDepth, pixels: &[u8]) -> Vec<u8> {
        let mut bytes = Vec::new();
        let mut encoder = Encoder::new(&mut bytes, width, height);
        encoder.set_color(color);
        encoder.set_depth(depth);
        encoder.write_header().expect("a header").write_image_data(pixels).expect("pixels");
        bytes
    }

    #[test]
    fn there_and_back() {
        for bytes in [PICTURE, 200 * LINE_BYTES] {
            let lines = picture(bytes);
            let file = encode(&lines);
            assert!(is_png(&file));
            assert_eq!(decode(&file).expect("lines"), lines);
        }
    }

    #[test]
    fn what_is_wrong_is_said() {
        let wrong = |bytes: &[u8], right: &str| {
            let error = decode(bytes).expect_err("refused");
            assert!(error.contains(right), "{right} in {error}");
        };
        let grey = |width, height, bytes| other(width, height, ColorType::Grayscale, BitDepth::One, &vec![0; bytes]);
        wrong(&grey(720, 256, PICTURE), "a PNG of 720 x 256, not 720 x 512 or 720 x 400");
        wrong(&grey(712, 512, 89 * 512), "a PNG of 712 x 512, not 720 x 512 or 720 x 400");
        let eight = other(720, 512, ColorType::Grayscale, BitDepth::Eight, &[0; 720 * 512]);
        wrong(&eight, "a PNG of 8-bit grayscale, not of 1-bit grayscale");
        let colour = other(720, 512, ColorType::Rgb, BitDepth::Eight, &[0; 3 * 720 * 512]);
        wrong(&colour, "a PNG of 8-bit rgb, not of 1-bit grayscale");
        let mut doubled = vec![0; 2 * PICTURE];
        doubled[7 * LINE_BYTES + 3] = 1;
        let uneven = other(720, 512, ColorType::Grayscale, BitDepth::One, &doubled);
        wrong(&uneven, "a PNG whose lines 6 and 7 differ");
        let whole = encode(&picture(PICTURE));
        wrong(&whole[..whole.len() - 1], "its end is missing");
        wrong(&[&whole[..], &[0]].concat(), "more is behind it");
        wrong(&[SIGNATURE, END].concat(), "a broken PNG");
        wrong(SIGNATURE, "a broken PNG");
    }

    /// A bit altered is refused. So are bytes left out, or nothing of the picture was among them.
    #[test]
    fn damage_is_refused() {
        let lines = picture(PICTURE);
        let whole = encode(&lines);
        // All of the head and the end, and some of what is between.
        let altered = (0..whole.len()).filter(|at| *at < 200 || at % 97 == 0 || whole.len() - at < 100);
        for at in altered {
            for bit in 0..8 {
                let mut bytes = whole.clone();
                bytes[at] ^= 1 << bit;
                assert!(!is_png(&bytes) || decode(&bytes).is_err(), "byte {at}, bit {bit}");
            }
            let cut = [&whole[..at], END].concat();
            assert!(!is_png(&cut) || decode(&cut).map_or(true, |read| read == lines), "cut at {at}");
        }
    }
}
