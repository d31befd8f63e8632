//! What the jobs of crates/iref_bench read, by inputs.c, and digests.
#![allow(dead_code)]

use std::ffi::{c_char, c_int, CStr};
use std::hash::{BuildHasherDefault, Hasher};

const LONGEST: usize = 1024;

mod c {
    use super::{c_char, c_int};

    #[repr(C)]
    pub struct Namespace {
        pub full: *const c_char,
        pub label: *const c_char,
        pub other: *const c_char,
    }

    extern "C" {
        pub static BASE: [c_char; 57];
        pub static NAMESPACES: [Namespace; 10];
        pub fn next_number(state: *mut u64) -> u64;
        pub fn folded(state: u64, bytes: *const c_char, length: usize) -> u64;
        pub fn put_item(to: *mut c_char, way: c_int, item: u64, offset: u64) -> usize;
        pub fn put_url(to: *mut c_char, number: u64) -> usize;
        pub fn put_page(to: *mut c_char, page: u64, offset: u64) -> usize;
        pub fn put_link(to: *mut c_char, kind: u64, number: u64) -> usize;
    }
}

fn text(it: *const c_char) -> &'static str {
    unsafe { CStr::from_ptr(it) }.to_str().expect("UTF-8")
}

/// The base of `read`.
pub fn base() -> &'static str {
    text(unsafe { c::BASE.as_ptr() })
}

/// The labels of `read` with their IRIs.
pub fn namespaces() -> impl Iterator<Item = (&'static str, &'static str)> {
    unsafe { &c::NAMESPACES }.iter().map(|it| (text(it.label), text(it.full)))
}

/// Numbers that a seed determines.
pub struct Numbers(pub u64);

impl Numbers {
    pub fn next(&mut self) -> u64 {
        unsafe { c::next_number(&mut self.0) }
    }
}

/// Room for one text.
pub struct Text([u8; LONGEST]);

impl Text {
    pub fn new() -> Self {
        Text([0; LONGEST])
    }

    fn written(&mut self, write: impl FnOnce(*mut c_char) -> usize) -> &str {
        let length = write(self.0.as_mut_ptr().cast());
        unsafe { std::str::from_utf8_unchecked(&self.0[..length]) }
    }

    pub fn item(&mut self, way: c_int, item: u64, offset: u64) -> &str {
        self.written(|to| unsafe { c::put_item(to, way, item, offset) })
    }

    pub fn url(&mut self, number: u64) -> &str {
        self.written(|to| unsafe { c::put_url(to, number) })
    }

    pub fn page(&mut self, page: u64, offset: u64) -> &str {
        self.written(|to| unsafe { c::put_page(to, page, offset) })
    }

    pub fn link(&mut self, kind: u64, number: u64) -> &str {
        self.written(|to| unsafe { c::put_link(to, kind, number) })
    }
}

/// One number for all results, and the hash of a map as in iref_bench.
pub struct Digest(u64);

impl Default for Digest {
    fn default() -> Self {
        Digest(0x243f_6a88_85a3_08d3)
    }
}

impl Hasher for Digest {
    fn write(&mut self, bytes: &[u8]) {
        self.0 = unsafe { c::folded(self.0, bytes.as_ptr().cast(), bytes.len()) };
    }

    fn finish(&self) -> u64 {
        self.0
    }
}

pub type Hashes = BuildHasherDefault<Digest>;

/// Does the job that the words name: JOB COUNT SEED.
pub fn run(jobs: &[(&str, fn(u64, u64, &mut Digest))]) {
    let words: Vec<String> = std::env::args().collect();
    let (_, job) = jobs.iter().find(|(name, _)| *name == words[1]).expect("no such job");
    let mut digest = Digest::default();
    job(words[2].parse().expect("no count"), words[3].parse().expect("no seed"), &mut digest);
    println!("{} {:016x}", words[1], digest.finish());
}
