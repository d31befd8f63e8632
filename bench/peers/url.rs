//! The jobs `list` and `mirror` by `url`, which repairs a text where `iref` refuses it, and keeps the repaired one.
#[path = "inputs.rs"]
mod inputs;

use inputs::{Digest, Hashes, Numbers, Text};
use percent_encoding::percent_decode_str;
use std::collections::HashMap;
use std::hash::Hasher;
use url::{Position, Url};

/// The text of a URL with its path decoded, which `url` leaves as it is.
fn key(text: &str) -> String {
    let url = Url::parse(text).expect("no URL");
    if !url.path().contains('%') {
        return url.into();
    }
    let path = percent_decode_str(url.path()).decode_utf8().expect("UTF-8");
    [&url[..Position::BeforePath], &*path, &url[Position::AfterPath..]].concat()
}

/// Sorts these URLs by their keys, and adds each that differs from the one before it.
fn sort(count: u64, numbers: &mut Numbers, digest: &mut Digest) {
    let mut text = Text::new();
    let texts: Vec<String> = (0..count).map(|_| text.url(numbers.next()).to_owned()).collect();
    let mut keyed: Vec<(String, &str)> = texts.iter().map(|it| (key(it), &**it)).collect();
    keyed.sort_by(|a, b| a.0.cmp(&b.0));
    keyed.dedup_by(|a, b| a.0 == b.0);
    for (_, text) in &keyed {
        digest.write(text.as_bytes());
    }
}

fn list(count: u64, seed: u64, digest: &mut Digest) {
    let mut numbers = Numbers(seed);
    sort(count, &mut numbers, digest);
    sort(count, &mut numbers, digest);
}

/// The target relative to the page. `make_relative` has an answer only where scheme, host and port agree.
fn relative(page: &Url, target: &Url) -> String {
    page.make_relative(target).unwrap_or_else(|| target.as_str().to_owned())
}

fn edit(target: &mut Url, kind: u64) {
    match kind / 8 % 4 {
        0 => {
            target.set_fragment(None);
            target.set_query(Some("from=mirror"));
        }
        1 => {
            target.path_segments_mut().expect("a path").pop().push("copy.html");
        }
        2 => {
            let normal = target.path().to_owned();
            target.set_path(&normal);
        }
        _ => {
            target.set_fragment(None);
            target.path_segments_mut().expect("a path").pop().extend(["local", "files"]);
            target.set_port(Some(8080)).expect("no port");
        }
    }
}

/// Resolves each link of each page.
fn follow(count: u64, seed: u64, mut followed: impl FnMut(&Url, u64, u64, Url)) {
    let mut numbers = Numbers(seed);
    let offset = numbers.next() % 65_536;
    let mut text = Text::new();
    for page in 0..count {
        let page = Url::parse(text.page(page, offset)).expect("no page");
        for number in 0..100 {
            let kind = numbers.next();
            let target = page.join(text.link(kind, numbers.next())).expect("no link");
            followed(&page, number, kind, target);
        }
    }
}

fn mirror(count: u64, seed: u64, digest: &mut Digest) {
    let mut seen: HashMap<Url, u64, Hashes> = HashMap::default();
    let mut last = None;
    follow(count, seed, |page, number, kind, target| {
        if number == 0 {
            seen = HashMap::default();
            last = Some(page.clone());
        }
        let mut edited = last.take().expect("a URL");
        digest.write_u64(u64::from(target == edited));
        digest.write(target.as_str().as_bytes());
        digest.write(relative(page, &target).as_bytes());
        edit(&mut edited, kind);
        digest.write(edited.as_str().as_bytes());
        digest.write_u64(*seen.entry(edited).or_insert(number));
        last = Some(target);
    });
}

/// What the links of `mirror` lead to, and what they are relative to their pages.
fn links(count: u64, seed: u64, digest: &mut Digest) {
    follow(count, seed, |page, _, _, target| {
        digest.write(target.as_str().as_bytes());
        digest.write(relative(page, &target).as_bytes());
    });
}

fn main() {
    inputs::run(&[("list", list), ("mirror", mirror), ("links", links)]);
}
