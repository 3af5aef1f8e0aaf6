//! Blocks entered again whose rows share one hash of the library's, before and after the folding.

use std::collections::{HashMap, HashSet};

use super::blocks::{blocks_of, BlockShape};
use super::library_hash::{ats_of_hash, twin_hash, HASHES};
use super::vocabulary::Vocabulary;
use crate::checker::{words_of, Row};
use crate::random::Random;

/// A table of one device, in which places have one hash, and so have name and value under the row that stays.
pub fn colliding_blocks(random: &mut Random, vocabulary: &Vocabulary, device: u32) -> Vec<u32> {
    let (hash, twins) = (random.below(HASHES as usize) as u32, random.below(HASHES as usize) as u32);
    let ats: Vec<u32> = ats_of_hash(device, hash).collect();
    let most = ats.len().min(50);
    let shape = BlockShape { rows: random.between(10, most), ..BlockShape::new(random, 0) };
    let mut rows = blocks_of(random, device, [vocabulary; 2], shape);
    let new_at: HashMap<u32, u32> = rows.iter().map(|row| row.at).zip(ats).collect();
    for row in &mut rows {
        row.at = new_at[&row.at];
        row.up = if row.is_root() { 0 } else { new_at[&row.up] };
    }
    give_values(random, &mut rows, twins);
    words_of(&rows)
}

/// Other values: rows of one path keep equal ones, and siblings of different paths get different ones.
fn give_values(random: &mut Random, rows: &mut [Row], twins: u32) {
    // The at of the row that stays for each, and the value of each path.
    let (mut stays, mut values) = (HashMap::from([(0, 0)]), HashMap::new());
    let mut taken = HashSet::new();
    for row in rows {
        let up = stays[&row.up];
        let (at, value) = *values.entry([up, row.name, row.value]).or_insert_with(|| {
            let with_value = |value| Row { up, value, ..*row };
            let is_free = |like: &Row| twin_hash(like) == twins && taken.insert([up, like.name, like.value]);
            let from = random.below(1 << 30) as u32;
            (row.at, (from..).map(with_value).find(is_free).expect("each hash is that of many values").value)
        });
        stays.insert(row.at, at);
        row.value = value;
    }
}

#[cfg(test)]
mod tests {
    use super::*;
    use crate::checker::{accepted_but_siblings, folded_rows};
    use crate::generate::place_hash;

    #[test]
    fn rows_have_one_hash() {
        let mut fewer = 0;
        for seed in 0..300 {
            let random = &mut Random::new(seed);
            let (vocabulary, device) = (Vocabulary::new(random), random.pick(&[1, 7, 65_535]));
            let table = colliding_blocks(random, &vocabulary, device);
            let rows = accepted_but_siblings(&table).expect("all checks but 12 pass");
            let left = folded_rows(&rows);
            assert!(rows.iter().all(|row| place_hash(device, row.at) == place_hash(device, rows[0].at)));
            assert!(left.iter().all(|row| twin_hash(row) == twin_hash(&left[0])), "seed {seed}");
            fewer += (left.len() < rows.len()) as u32;
        }
        assert!(fewer >= 200, "rows go of {fewer} alone");
    }
}
