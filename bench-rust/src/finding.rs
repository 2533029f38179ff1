//! Finding the region that holds a base: ours beside a walk from the first region, and the verdicts on the same bases.

use crate::compare::Random;
use crate::plain::{Kernel, ADDRESSES, MAX_REGIONS};
use crate::plain_runs::{Asked, REGIONS, REGION_SIZE};
use crate::table::cell;
use crate::{by_turns, ours, plain_runs, RUNS};
use std::hint::black_box;

const BASES: usize = 1_000_000;
const SEED: u64 = 0x5eed_0014;
/// An area of one byte is within the region of its base.
const ONE_BYTE: u32 = 1;
/// Small regions and gaps, so that every address about them can be tried.
const MAX_GAP: usize = 2;
const MAX_SIZE: usize = 4;
const MAX_ROOM: u64 = (MAX_GAP + MAX_SIZE) as u64;

/// Where regions lie: few enough, in order, each with a size, which our search asks for and does not check.
pub struct Places {
    bases: Vec<u32>,
    sizes: Vec<u32>,
}

impl Places {
    fn new(bases: Vec<u32>, sizes: Vec<u32>) -> Places {
        let end = |k: usize| u64::from(bases[k]) + u64::from(sizes[k]);
        assert!(bases.len() <= MAX_REGIONS && bases.len() == sizes.len());
        assert!((1..bases.len()).all(|k| end(k - 1) <= u64::from(bases[k])));
        Places { bases, sizes }
    }

    /// Up to an end, from the last region down; some touch the next, some do not.
    fn random(random: &mut Random, count: usize, end: u64) -> Places {
        let (mut bases, mut sizes, mut next) = (vec![0; count], vec![0; count], end);
        for k in (0..count).rev() {
            let gap = if random.one_in(2) { 0 } else { random.below(MAX_GAP + 1) };
            let size = 1 + random.below(MAX_SIZE);
            next -= (gap + size) as u64;
            (bases[k], sizes[k]) = (next as u32, size as u32);
        }
        Places::new(bases, sizes)
    }

    pub fn bases(&self) -> &[u32] {
        &self.bases
    }

    pub fn sizes(&self) -> &[u32] {
        &self.sizes
    }

    /// What an ordinary kernel does; the number of regions where none holds the address.
    fn walk(&self, address: u32) -> usize {
        let holds = |(&base, &size): (&u32, &u32)| address >= base && address - base < size;
        self.bases.iter().zip(&self.sizes).position(holds).unwrap_or(self.bases.len())
    }
}

/// Every number of regions, at both ends of the addresses, and every address about them.
fn same_regions() -> u32 {
    let mut random = Random::new(SEED);
    let mut tried = 0;
    for count in 0..=MAX_REGIONS {
        let room = MAX_ROOM * count as u64;
        for end in [room, ADDRESSES] {
            let places = Places::random(&mut random, count, end);
            for address in end - room..ADDRESSES.min(end + MAX_ROOM) {
                let address = address as u32;
                assert_eq!(ours::find(&places, address), places.walk(address), "{address:#x} of {count}");
                tried += 1;
            }
        }
    }
    tried
}

/// The sum of what is found, over all bases in so many passes.
fn total(bases: &[u32], passes: u32, find: impl Fn(u32) -> usize) -> u32 {
    let added = |sum: u32, &base: &u32| sum.wrapping_add(find(base) as u32);
    (0..passes).fold(0, |sum, _| black_box(bases).iter().fold(sum, added))
}

fn random_bases(from: u32, until: u32) -> Vec<u32> {
    let mut random = Random::new(SEED);
    (0..BASES).map(|_| from + random.below((until - from) as usize) as u32).collect()
}

/// One pass over the bases is a run.
fn timed(name: &str, ours: impl Fn(u32) -> u32, plain: impl Fn(u32) -> u32) {
    assert_eq!(ours(1), plain(1), "{name}");
    let [ours, plain] = by_turns(ours, plain, [1; 2], BASES as f64);
    println!("| {name} | {} | {} | {:.1} |", cell(ours), cell(plain), plain.least / ours.least);
}

pub fn finding() {
    println!("\nBoth find the same region of up to {MAX_REGIONS} for {} addresses.", same_regions());
    println!("ns per base, {BASES} bases at random among {REGIONS} regions: the least of {RUNS} runs (the median).\n");
    println!("| Search | ours | a walk from the first | times as quick |");
    println!("|---|---|---|---|");
    let places = Places::new(plain_runs::starts(), vec![REGION_SIZE; MAX_REGIONS]);
    let mut kernel = Kernel::EMPTY;
    plain_runs::all_regions(&mut kernel);
    let kernel = black_box(&kernel);
    let end = REGIONS * REGION_SIZE;
    for (name, from) in [("last region", end - REGION_SIZE), ("all regions", 0)] {
        let bases = random_bases(from, end);
        for &base in &bases {
            let found = ours::find(&places, base);
            assert_eq!((found, Some(found)), (places.walk(base), kernel.region_of(base)), "{base:#x}");
        }
        let ours = |passes| total(&bases, passes, |base| ours::find(&places, base));
        let arrays = |passes| total(&bases, passes, |base| places.walk(base));
        let records = |passes| total(&bases, passes, |base| kernel.region_of(base).unwrap_or(MAX_REGIONS));
        timed(&format!("{name}, the same arrays"), ours, arrays);
        timed(&format!("{name}, ordinary kernel"), ours, records);
        let asked = Asked::reading(bases, ONE_BYTE);
        timed(
            &format!("{name}, verdict"),
            |passes| ours::verdict(passes, &asked),
            |passes| plain_runs::verdict(passes, &asked),
        );
    }
}
