//! The page that `joyce demo --html` writes: what is in it, and, where there is chromium, what a browser shows of it.

mod browser;
mod common;

use browser::{data_uri, looked_at, Expected};
use common::{folder, joyce, names, said};
use std::fs;
use std::path::Path;

const LINE: usize = 90;

/// A page, what the demo said, and its last picture.
struct Page {
    html: String,
    text: String,
    last: Vec<u8>,
}

fn page(folder: &Path) -> Page {
    let output = joyce(folder, &["demo", "-o", "last.pbm", "--html", "page.html"]);
    assert!(output.status.success());
    let html = fs::read_to_string(folder.join("page.html")).expect("the page");
    let last = fs::read(folder.join("last.pbm")).expect("the picture").split_off(11);
    Page { html, text: said(&output), last }
}

/// What stands between two texts, each time.
fn between<'t>(text: &'t str, before: &str, behind: &str) -> Vec<&'t str> {
    text.split(before).skip(1).map(|rest| rest.split(behind).next().unwrap_or_default()).collect()
}

/// Bytes from base64, taken bit by bit.
fn from_base64(text: &str) -> Vec<u8> {
    let letters = "ABCDEFGHIJKLMNOPQRSTUVWXYZabcdefghijklmnopqrstuvwxyz0123456789+/";
    let (mut bytes, mut number, mut bits) = (Vec::new(), 0, 0);
    for letter in text.trim_end_matches('=').chars() {
        number = (number << 6 | letters.find(letter).expect("a letter of base64")) & 0xFFFF;
        bits += 6;
        if bits >= 8 {
            bits -= 8;
            bytes.push((number >> bits) as u8);
        }
    }
    bytes
}

/// The pictures of a page, as 256 lines of bits; each is written in two lines of pixels.
fn pictures(html: &str) -> Vec<Vec<u8>> {
    let picture = |text: &str| {
        let bytes = from_base64(text);
        let mut reader = png::Decoder::new(bytes.as_slice()).read_info().expect("a PNG");
        let mut pixels = vec![0; reader.output_buffer_size()];
        reader.next_frame(&mut pixels).expect("pixels");
        assert_eq!((reader.info().width, reader.info().height, pixels.len()), (720, 512, 2 * 256 * LINE));
        assert!(pixels.chunks(2 * LINE).all(|pair| pair[..LINE] == pair[LINE..]));
        pixels.chunks(2 * LINE).flat_map(|pair| pair[..LINE].to_vec()).collect()
    };
    between(html, "data:image/png;base64,", "\"").into_iter().map(picture).collect()
}

/// Of each refresh, as the demo tells it: what happened, the sums, and how many lines and bytes saved they name.
fn told(text: &str) -> Vec<(String, String, usize, usize)> {
    let refreshes = text.lines().filter_map(|line| line.split_once(": ").filter(|_| line.contains(" saved of 23040")));
    refreshes
        .map(|(what, sums)| {
            let number = |text: &str| text.parse().expect("a number");
            let saved = between(sums, "cable, ", " saved")[0];
            (what.to_string(), sums.to_string(), number(sums.split(' ').next().unwrap_or_default()), number(saved))
        })
        .collect()
}

/// The pictures with how many lines each was sent by.
fn expected(page: &Page) -> Vec<Expected> {
    let (pictures, told) = (pictures(&page.html), told(&page.text));
    assert_eq!(pictures.len(), told.len());
    assert_eq!(pictures.last(), Some(&page.last));
    pictures.into_iter().zip(told).map(|(picture, (_, _, count, _))| Expected { picture, count }).collect()
}

#[test]
fn it_has_what_the_demo_tells() {
    let folder = folder("page");
    let page = page(&folder);
    assert_eq!(names(&folder), ["last.archive", "last.pbm", "page.html"]);
    assert_eq!(expected(&page).len(), 6);
    let told = told(&page.text);
    for (what, sums, ..) in &told {
        let capital = what[..1].to_uppercase() + &what[1..];
        assert!(page.html.contains(&format!(". {capital}</h2>")) && page.html.contains(sums), "{what}: {sums}");
    }
    let saved: usize = told.iter().map(|(_, _, _, saved)| saved).sum();
    assert!(page.html.contains(&format!("In all, {saved} bytes were saved of {}", told.len() * 23_040)));
    let marked = |svg: &&str| -> usize {
        between(svg, "height=\"", "\"").iter().map(|n| n.parse::<usize>().expect("a number")).sum()
    };
    let marks: Vec<usize> = between(&page.html, "<svg ", "</svg>").iter().map(marked).collect();
    assert_eq!(marks, told.iter().map(|(_, _, count, _)| *count).collect::<Vec<_>>());
    assert!(page.text.ends_with("6 pictures on the page in page.html\n"));
}

/// One file, from which nothing leads out and in which nothing runs.
#[test]
fn it_needs_nothing_else() {
    let folder = folder("page-alone");
    let Page { html, .. } = page(&folder);
    assert!(html.starts_with("<!DOCTYPE html>\n<html lang=\"en\">\n") && html.ends_with("</html>\n"));
    for outside in ["<script", "://", "url(", "@import", "<iframe", "<object", "javascript:"] {
        assert!(!html.contains(outside), "{outside}");
    }
    for address in between(&html, "src=\"", "\"").iter().chain(&between(&html, "href=\"", "\"")) {
        assert!(address.starts_with("data:"), "{address}");
    }
    assert!(between(&html, "<img ", ">").iter().all(|image| image.contains("alt=\"The screen ")));
    // Each element that is opened is closed, but those that have no end.
    let mut open = Vec::new();
    for tag in between(&html, "<", ">") {
        let name = tag.split([' ', '\n']).next().unwrap_or_default();
        match name.strip_prefix('/') {
            Some(name) => assert_eq!(open.pop(), Some(name), "</{name}>"),
            None if ["!DOCTYPE", "meta", "link", "img", "rect"].contains(&name) => {}
            None => open.push(name),
        }
    }
    assert!(open.is_empty(), "{open:?}");
}

#[test]
#[ignore = "needs chromium: .ci/page runs it"]
fn a_browser_shows_every_picture_and_its_marks() {
    let folder = folder("page-browser");
    let page = page(&folder);
    let expected = expected(&page);
    looked_at(&folder, &page.html, &expected).expect("all pictures, and their marks");
    // One dot of a picture is another.
    let mut spoilt = expected[2].picture.clone();
    spoilt[100 * LINE + 45] ^= 0x10;
    let image = between(&page.html, "src=\"", "\"")[2];
    let with = |picture: &[u8]| page.html.replacen(image, &data_uri(picture), 1);
    looked_at(&folder, &with(&expected[2].picture), &expected).expect("the same pictures");
    let error = looked_at(&folder, &with(&spoilt), &expected).expect_err("a spoilt picture");
    assert!(error.starts_with("picture 3 is not there"), "{error}");
    // A mark is a line too low.
    let error =
        looked_at(&folder, &page.html.replacen("y=\"232\"", "y=\"233\"", 1), &expected).expect_err("a moved mark");
    assert!(error.starts_with("picture 2: line 232 has changed and is not marked"), "{error}");
}
