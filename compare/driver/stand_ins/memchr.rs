//! Stand-in for the one function of memchr that the original calls, byte by byte.

pub fn memchr3(a: u8, b: u8, c: u8, bytes: &[u8]) -> Option<usize> {
    bytes.iter().position(|&x| x == a || x == b || x == c)
}
