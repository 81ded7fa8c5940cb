//! The demo as one page of HTML, with all that it needs inside.

use super::Refreshed;
use crate::tool::png;
use joyce::PICTURE;

/// Style and introduction.
const HEAD: &str = include_str!("head.html");
const VERSION: &str = include_str!("../../../help/version");

pub fn html(refreshed: &[Refreshed]) -> String {
    let figures: String = refreshed.iter().enumerate().map(|(at, refreshed)| figure(at + 1, refreshed)).collect();
    let version = escaped(VERSION.trim_end());
    format!("{HEAD}{figures}{}<footer>Made by {version}.</footer>\n</main>\n</body>\n</html>\n", sum(refreshed))
}

/// A picture with what is said about it, and its marks beside it.
fn figure(number: usize, refreshed: &Refreshed) -> String {
    let Refreshed { what, why, picture, .. } = refreshed;
    let (what, why, sums) = (escaped(what), escaped(why), escaped(&refreshed.sums()));
    let runs = refreshed.runs();
    let marks: String = runs.iter().map(|(first, count)| mark(*first, *count)).collect();
    let named: Vec<String> = runs.iter().map(|(first, count)| format!("{first} to {}", first + count - 1)).collect();
    let sent = if named.is_empty() { "no lines".to_string() } else { format!("lines {}", named.join(", ")) };
    let data = base64(&png::encode(picture));
    format!(
        "<figure>\n<figcaption>\n<h2>{number}. {}</h2>\n<p>{why}</p>\n<p class=\"sums\">{sums}</p>\n</figcaption>\n\
         <div class=\"screen\">\n<div class=\"strip\"><svg viewBox=\"0 0 1 256\" preserveAspectRatio=\"none\" \
         role=\"img\" aria-label=\"Sent: {sent}.\">{marks}</svg></div>\n\
         <img width=\"720\" height=\"512\" alt=\"The screen with the ledger, light letters on a dark ground, \
         after this: {what}.\" src=\"data:image/png;base64,{data}\">\n</div>\n</figure>\n",
        capital(&what)
    )
}

fn mark(first: usize, count: usize) -> String {
    format!("<rect x=\"0\" y=\"{first}\" width=\"1\" height=\"{count}\"/>")
}

/// What each refresh sent and saved, and the sums.
fn sum(refreshed: &[Refreshed]) -> String {
    let row = |what: &str, lines: usize, sent: usize, saved: usize| {
        format!("<tr><th scope=\"row\">{what}</th><td>{lines}</td><td>{sent}</td><td>{saved}</td></tr>\n")
    };
    let of_one = |one: &Refreshed| row(&capital(&escaped(&one.what)), one.lines.len(), one.sent(), one.saved());
    let rows: String = refreshed.iter().map(of_one).collect();
    let sum = |of: fn(&Refreshed) -> usize| refreshed.iter().map(of).sum::<usize>();
    let saved = sum(Refreshed::saved);
    let whole = refreshed.len() * PICTURE;
    let last = row("In all", sum(|one| one.lines.len()), sum(Refreshed::sent), saved);
    let head = ["What happened", "Lines sent", "Bytes sent", "Bytes saved"];
    let head: String = head.iter().map(|text| format!("<th scope=\"col\">{text}</th>")).collect();
    format!(
        "<section class=\"sum\">\n<h2>In all, {saved} bytes were saved of {whole}</h2>\n<table>\n\
         <thead>\n<tr>{head}</tr>\n</thead>\n<tbody>\n{rows}</tbody>\n<tfoot>\n{last}</tfoot>\n</table>\n</section>\n"
    )
}

/// With a capital letter at the front.
fn capital(text: &str) -> String {
    let mut letters = text.chars();
    letters.next().map_or(String::new(), |first| first.to_uppercase().chain(letters).collect())
}

/// Text as HTML has it, also between quotes.
fn escaped(text: &str) -> String {
    text.replace('&', "&amp;").replace('<', "&lt;").replace('>', "&gt;").replace('"', "&quot;")
}

/// Three bytes as four letters, as data: addresses have them.
fn base64(bytes: &[u8]) -> String {
    const LETTERS: &[u8; 64] = b"ABCDEFGHIJKLMNOPQRSTUVWXYZabcdefghijklmnopqrstuvwxyz0123456789+/";
    let four = |three: &[u8]| {
        let number = (0..3).fold(0, |number, at| number << 8 | three.get(at).map_or(0, |&byte| byte as usize));
        let letter = |at: usize| if at > three.len() { '=' } else { LETTERS[number >> (18 - 6 * at) & 63] as char };
        [0, 1, 2, 3].map(letter)
    };
    bytes.chunks(3).flat_map(four).collect()
}

#[cfg(test)]
mod tests {
    use super::*;

    #[test]
    fn base64_has_its_known_answers() {
        let answers =
            [("", ""), ("f", "Zg=="), ("fo", "Zm8="), ("foo", "Zm9v"), ("foob", "Zm9vYg=="), ("fooba", "Zm9vYmE=")];
        for (text, right) in answers {
            assert_eq!(base64(text.as_bytes()), right);
        }
        assert_eq!(base64(&[0xFF, 0xFB, 0xBF]), "//u/");
    }

    #[test]
    fn texts_are_escaped() {
        assert_eq!(escaped("a < b & \"c\" > d"), "a &lt; b &amp; &quot;c&quot; &gt; d");
        let lines = vec![3, 4, 9];
        let picture = vec![0; PICTURE];
        let one = Refreshed { what: "<b> & \"co\"".to_string(), why: "it < all", lines, floating: false, picture };
        let page = html(&[one]);
        assert!(page.contains("<h2>1. &lt;b&gt; &amp; &quot;co&quot;</h2>") && page.contains("it &lt; all"), "{page}");
        assert!(page.contains(
            "<rect x=\"0\" y=\"3\" width=\"1\" height=\"2\"/><rect x=\"0\" y=\"9\" width=\"1\" height=\"1\"/>"
        ));
        assert!(
            page.contains("Sent: lines 3 to 4, 9 to 9.") && page.contains("In all, 22770 bytes were saved of 23040")
        );
    }
}
