//! Links the static library libdispatch_bench.a: that in the folder DISPATCH_BENCH_LIB, or else the one that was built, in target/staticlib
//! (tools/library), or else the stored one, in lib. Its SHA-256 is `LIBRARY_SHA256` of the crate.

use std::path::{Path, PathBuf};

const LIBRARY: &str = "libdispatch_bench.a";

/// Where the library may be, the first place first. A folder that is named is the only one.
fn folders() -> Vec<PathBuf> {
    match std::env::var_os("DISPATCH_BENCH_LIB") {
        Some(folder) => vec![PathBuf::from(folder)],
        None => {
            let root = Path::new(env!("CARGO_MANIFEST_DIR")).join("..");
            vec![root.join("target/staticlib"), root.join("lib")]
        }
    }
}

fn main() {
    println!("cargo::rerun-if-env-changed=DISPATCH_BENCH_LIB");
    println!("cargo::rerun-if-changed=build.rs");
    let folders = folders();
    for folder in &folders {
        println!("cargo::rerun-if-changed={}", folder.join(LIBRARY).display());
    }
    let Some(folder) = folders.iter().find(|f| f.join(LIBRARY).is_file()) else {
        for folder in &folders {
            println!(
                "cargo::error=the proved library is not at {}",
                folder.join(LIBRARY).display()
            );
        }
        println!(
            "cargo::error=run `tools/library` in the repository's root, or name its folder in DISPATCH_BENCH_LIB (an absolute path)"
        );
        return;
    };
    println!("cargo::rustc-link-search=native={}", folder.display());
    println!("cargo::rustc-link-lib=static=dispatch_bench");
    match std::fs::read(folder.join(LIBRARY)) {
        Ok(bytes) => println!("cargo::rustc-env=LIBRARY_SHA256={}", sha_256(&bytes)),
        Err(error) => println!("cargo::error={LIBRARY} cannot be read: {error}"),
    }
}

/// The first 32 bits of the fraction of a root of the k-th prime, from 0; `root` is 2 or 3. They are the last of the whole root of the prime times 2 to
/// the 64 or 96.
fn fraction(k: usize, root: u32) -> u32 {
    let mut primes = (2u128..).filter(|n| (2..*n).all(|d| !n.is_multiple_of(d)));
    let prime = primes.nth(k).unwrap_or(2);
    let (mut low, mut high) = (0u128, 1 << 40);
    while high - low > 1 {
        let middle = (low + high) / 2;
        match middle.pow(root) <= prime << (32 * root) {
            true => low = middle,
            false => high = middle,
        }
    }
    low as u32
}

/// The SHA-256 of bytes in hexadecimal digits (FIPS 180-4).
fn sha_256(bytes: &[u8]) -> String {
    let constants: Vec<u32> = (0..64).map(|k| fraction(k, 3)).collect();
    let mut state: Vec<u32> = (0..8).map(|k| fraction(k, 2)).collect();
    let mut padded = bytes.to_vec();
    padded.push(0x80);
    padded.resize(padded.len().next_multiple_of(64), 0);
    if bytes.len() % 64 >= 56 {
        padded.resize(padded.len() + 64, 0);
    }
    let end = padded.len() - 8;
    padded[end..].copy_from_slice(&(8 * bytes.len() as u64).to_be_bytes());
    for block in padded.chunks_exact(64) {
        mix(&mut state, block, &constants);
    }
    state.iter().map(|word| format!("{word:08x}")).collect()
}

/// One block's 64 rounds.
fn mix(state: &mut [u32], block: &[u8], constants: &[u32]) {
    let turned = |x: u32, by: [u32; 3]| by.map(|n| x.rotate_right(n)).iter().fold(0, |a, b| a ^ b);
    let mut words: Vec<u32> = Vec::with_capacity(64);
    for four in block.chunks_exact(4) {
        words.push(four.iter().fold(0, |word, b| word << 8 | u32::from(*b)));
    }
    for k in 16..64 {
        let (a, b) = (words[k - 15], words[k - 2]);
        let first = a.rotate_right(7) ^ a.rotate_right(18) ^ a >> 3;
        let second = b.rotate_right(17) ^ b.rotate_right(19) ^ b >> 10;
        let sum = words[k - 16].wrapping_add(first).wrapping_add(words[k - 7]);
        words.push(sum.wrapping_add(second));
    }
    let mut s: Vec<u32> = state.to_vec();
    for k in 0..64 {
        let choice = s[4] & s[5] ^ !s[4] & s[6];
        let most = s[0] & s[1] ^ s[0] & s[2] ^ s[1] & s[2];
        let one = [turned(s[4], [6, 11, 25]), choice, constants[k], words[k]];
        let one = one.iter().fold(s[7], |sum, term| sum.wrapping_add(*term));
        let two = turned(s[0], [2, 13, 22]).wrapping_add(most);
        s.rotate_right(1);
        s[4] = s[4].wrapping_add(one);
        s[0] = one.wrapping_add(two);
    }
    for (held, new) in state.iter_mut().zip(s) {
        *held = held.wrapping_add(new);
    }
}
