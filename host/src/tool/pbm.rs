//! Pictures as bare bits: PBM P4 of 720 x 256, or 23,040 bytes by themselves; of 200 lines, 720 x 200, or 18,000 bytes.

use joyce::{LINES, LINE_BYTES};

/// Lines as PBM. A lit pixel is a 1, which PBM viewers show as ink.
pub fn encode(lines: &[u8]) -> Vec<u8> {
    let header = format!("P4\n720 {}\n", lines.len() / LINE_BYTES);
    [header.as_bytes(), lines].concat()
}

/// The picture in a file, either form.
pub fn decode(bytes: &[u8]) -> Result<Vec<u8>, String> {
    decode_as(bytes, &[LINES])
}

/// The 200 or 256 lines in a file, either form.
pub fn decode_lines(bytes: &[u8]) -> Result<Vec<u8>, String> {
    decode_as(bytes, &[200, LINES])
}

/// What the heights make, joined as a choice.
fn choice(heights: &[usize], text: impl Fn(usize) -> String) -> String {
    heights.iter().map(|&lines| text(lines)).collect::<Vec<_>>().join(" or ")
}

/// A file that starts as a PBM is read as one, whatever its length.
fn decode_as(bytes: &[u8], heights: &[usize]) -> Result<Vec<u8>, String> {
    let pbm = bytes.starts_with(b"P4") && bytes.get(2).map_or(true, u8::is_ascii_whitespace);
    if !pbm && heights.iter().any(|lines| bytes.len() == lines * LINE_BYTES) {
        return Ok(bytes.to_vec());
    }
    if !pbm {
        let raw = choice(heights, |lines| (lines * LINE_BYTES).to_string());
        return Err(format!(
            "{} bytes: neither a PBM P4 file nor a raw picture of {raw} bytes, nor a PNG",
            bytes.len()
        ));
    }
    let (width, at) = number(bytes, 2)?;
    let (height, at) = number(bytes, at)?;
    if width != 720 || !heights.contains(&(height as usize)) {
        let right = choice(heights, |lines| format!("720 x {lines}"));
        return Err(format!("a PBM of {width} x {height}, not {right}"));
    }
    // One white-space byte stands between the height and the pixels.
    let pixels = bytes.get(at + 1..).unwrap_or_default();
    let right = height as usize * LINE_BYTES;
    if pixels.len() != right {
        return Err(format!("a PBM with {} bytes of pixels, not {right}", pixels.len()));
    }
    Ok(pixels.to_vec())
}

/// The number at or after an index, behind white space and comments, and the index behind it.
fn number(bytes: &[u8], mut at: usize) -> Result<(u32, usize), String> {
    while let Some(&byte) = bytes.get(at) {
        match byte {
            b'#' => at += bytes[at..].iter().position(|&b| b == b'\n').unwrap_or(bytes.len() - at),
            _ if byte.is_ascii_whitespace() => at += 1,
            _ => break,
        }
    }
    let digits = bytes[at..].iter().take_while(|byte| byte.is_ascii_digit()).count();
    let text = String::from_utf8_lossy(&bytes[at..at + digits]);
    let number = text.parse().map_err(|_| "a PBM header without width and height".to_string())?;
    Ok((number, at + digits))
}

#[cfg(test)]
mod tests {
    use super::*;
    use joyce::PICTURE;

    #[test]
    fn there_and_back() {
        let picture: Vec<u8> = (0..PICTURE).map(|at| (at * 7) as u8).collect();
        assert_eq!(decode(&encode(&picture)).unwrap(), picture);
        assert_eq!(decode(&picture).unwrap(), picture);
        let commented = [b"P4 # page\n720\n256 ".as_slice(), &picture].concat();
        assert_eq!(decode(&commented).unwrap(), picture);
        let fewer = &picture[..200 * LINE_BYTES];
        assert_eq!(decode_lines(&encode(fewer)).unwrap(), fewer);
        assert_eq!(decode_lines(fewer).unwrap(), fewer);
        assert_eq!(decode_lines(&encode(&picture)).unwrap(), picture);
        assert!(decode(fewer).is_err() && decode(&encode(fewer)).is_err());
    }

    #[test]
    fn refuses_what_is_not_a_picture() {
        for bytes in [b"".as_slice(), b"P4", b"P4\n720 256\n", b"P4\n8 8\n", b"P4 #", b"P1\n1 1\n1"] {
            assert!(decode(bytes).is_err() && decode_lines(bytes).is_err());
        }
        let whole = encode(&[0x55; PICTURE]);
        assert!(decode(&whole[..PICTURE]).is_err());
    }
}
