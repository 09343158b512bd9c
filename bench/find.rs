// Look-ups in a hash map of Rust's std, with the fingerprints of crates/stage_bench.
use std::collections::HashMap;
use std::time::Instant;

fn next(s: u64) -> u64 {
    s.wrapping_mul(6_364_136_223_846_793_005).wrapping_add(1_442_695_040_888_963_407)
}

fn fp_of(n: u64) -> [u8; 20] {
    let mut bytes = [0u8; 20];
    bytes[..8].copy_from_slice(&next(n).to_be_bytes());
    bytes[8..16].copy_from_slice(&n.to_be_bytes());
    bytes
}

fn main() {
    for containers in [10u64, 100, 400, 1000] {
        let all = containers * 1000;
        let mut map: HashMap<[u8; 20], Vec<u64>> = HashMap::new();
        for n in 0..all {
            map.entry(fp_of(n)).or_default().push(n / 1000);
        }
        let (mut state, mut found) = (1u64, 0u64);
        let start = Instant::now();
        for _ in 0..2_000_000 {
            state = next(state);
            if map.get(&fp_of((state >> 33) % all)).and_then(|ids| ids.last()).is_some() {
                found += 1;
            }
        }
        println!("Rust: {all} fingerprints: {} ns a look-up, {found} found", start.elapsed().as_nanos() / 2_000_000);
    }
}
