//! Refuses to build unless the three files of oxc_react_compiler 0.143.0 are as published: `originals.sha256` has the SHA-256 of each, as
//! `sha256sum -c originals.sha256` reads it.

use std::fs;

const ORIGINALS: &str = include_str!("originals.sha256");

fn main() {
    for line in ORIGINALS.lines() {
        let (expected, path) = line.split_once("  ").expect("a sum, two spaces, a path");
        println!("cargo::rerun-if-changed={path}");
        let found = sha256(&fs::read(path).expect(path));
        assert_eq!(found, expected, "{path} is not the published file");
    }
    assert_eq!(ORIGINALS.lines().count(), 3, "originals.sha256");
    println!("cargo::rerun-if-changed=originals.sha256");
    println!("cargo::rerun-if-changed=build.rs");
}

/// FIPS 180-4.
fn sha256(message: &[u8]) -> String {
    let primes: Vec<u64> = (2..312).filter(|n| (2..*n).all(|d| n % d != 0)).collect();
    // The first 32 bits of the fractional part of a root.
    let fraction = |root: f64| ((root - root.floor()) * 4_294_967_296.0) as u32;
    let round: Vec<u32> = primes.iter().take(64).map(|p| fraction((*p as f64).cbrt())).collect();
    let mut state: Vec<u32> = primes.iter().take(8).map(|p| fraction((*p as f64).sqrt())).collect();

    let mut padded = message.to_vec();
    padded.push(0x80);
    while padded.len() % 64 != 56 {
        padded.push(0);
    }
    padded.extend((8 * message.len() as u64).to_be_bytes());

    for chunk in padded.chunks_exact(64) {
        let mut w: Vec<u32> =
            chunk.chunks_exact(4).map(|b| u32::from_be_bytes(b.try_into().unwrap())).collect();
        for t in 16..64 {
            let s0 = w[t - 15].rotate_right(7) ^ w[t - 15].rotate_right(18) ^ (w[t - 15] >> 3);
            let s1 = w[t - 2].rotate_right(17) ^ w[t - 2].rotate_right(19) ^ (w[t - 2] >> 10);
            w.push(w[t - 16].wrapping_add(s0).wrapping_add(w[t - 7]).wrapping_add(s1));
        }
        let [mut a, mut b, mut c, mut d, mut e, mut f, mut g, mut h] = state[..] else {
            unreachable!()
        };
        for t in 0..64 {
            let s1 = e.rotate_right(6) ^ e.rotate_right(11) ^ e.rotate_right(25);
            let t1 = h
                .wrapping_add(s1)
                .wrapping_add((e & f) ^ (!e & g))
                .wrapping_add(round[t])
                .wrapping_add(w[t]);
            let s0 = a.rotate_right(2) ^ a.rotate_right(13) ^ a.rotate_right(22);
            let t2 = s0.wrapping_add((a & b) ^ (a & c) ^ (b & c));
            (h, g, f, e, d, c, b, a) = (g, f, e, d.wrapping_add(t1), c, b, a, t1.wrapping_add(t2));
        }
        for (old, new) in state.iter_mut().zip([a, b, c, d, e, f, g, h]) {
            *old = old.wrapping_add(new);
        }
    }
    state.iter().map(|word| format!("{word:08x}")).collect()
}
