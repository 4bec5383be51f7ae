//! The real memchr, as rustc's own library holds it: built without run-time detection, so with vectors of 16 bytes.
#![feature(rustc_private)]

extern crate memchr;

#[inline]
pub fn memchr3(a: u8, b: u8, c: u8, bytes: &[u8]) -> Option<usize> {
    memchr::memchr3(a, b, c, bytes)
}
