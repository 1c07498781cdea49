// What the scripts must meet of reads with m.

/// Good records before a broken one, at most.
const MOST_GOOD: usize = 2;

pub fn wanted() -> Vec<String> {
    let mut keys = ["0", "255"]
        .map(|sector| format!("m: broken, SR {}", sector))
        .to_vec();
    for density in ["FM", "MFM"] {
        keys.extend(broken_in(density));
        let missing = ["Searching", "AwaitingDataMark"];
        keys.extend(missing.map(|name| format!("m: not found in {} {}", name, density)));
    }
    for chip in ["1793", "1797"] {
        keys.extend(["0", "1"].map(|drq| format!("m: broken, {}, DRQ {}", chip, drq)));
        keys.extend(["0", "1"].map(|bit| format!("m: not found, {}, bit 3 {}", chip, bit)));
    }
    keys
}

/// A broken record, normal or deleted, after so many good ones.
fn broken_in(density: &str) -> Vec<String> {
    let chains = (0..=MOST_GOOD).flat_map(|good| ["normal", "deleted"].map(|kind| (good, kind)));
    chains
        .map(|(good, kind)| format!("m: {} good, then {} broken {}", good, kind, density))
        .collect()
}
