//! Document 02's W13: the charges for sums, compared with the library's, in all 64 bits, with the definition's and with the document's. No file, buffer or refusal
//! comes with them, so they are not counted as calls. `compare charges` goes through all 2^32 sums.

use second::call::low;
use second::definition::Charge;
use second::generate::Random;
use std::process;

/// The document's sums and their charges; and the largest sum, with 4,294,968 started thousands: 150 + 20 * 12 + 80 * 9 + 4,294,868 * 5.
const KNOWN: [(u32, u32); 9] = [
    (0, 150),
    (1, 162),
    (1_000, 162),
    (1_001, 174),
    (20_000, 390),
    (20_001, 399),
    (100_000, 1_110),
    (100_001, 1_115),
    (4_294_967_295, 21_475_450),
];

/// Up to where every sum is gone through, and how many random ones there are.
const EVERY: u32 = 130_000;
const RANDOM: usize = 100_000;

/// Compares the charges for the document's sums and for many others; answers how many.
pub fn cases() -> usize {
    for (sum, cents) in KNOWN {
        same("the document", sum, second::charge(sum).into(), cents.into());
    }
    rising(sums())
}

/// Compares the charges for all sums; answers how many.
pub fn every_sum() -> usize {
    rising(0..=u32::MAX)
}

/// All small sums, the document's, random ones of every size, and those at each end of a thousand; each once, lowest first.
fn sums() -> Vec<u32> {
    let mut sums: Vec<u32> = (0..=EVERY).collect();
    sums.extend(KNOWN.map(|(sum, _)| sum));
    let random = &mut Random::new(13);
    sums.extend((0..RANDOM).map(|_| (random.bits() >> 32) as u32 >> random.below(16)));
    // The last two sums of each thousand and the first two of the next.
    sums.extend((1_000..=u32::MAX).step_by(1_000).flat_map(|last| last - 1..=last + 2));
    sums.sort();
    sums.dedup();
    sums
}

/// Compares the charges for sums that rise, and sees that they do not fall; answers how many.
fn rising(sums: impl IntoIterator<Item = u32>) -> usize {
    let mut defined = Charge::of_plan();
    let mut before = 0;
    let mut count = 0;
    for sum in sums {
        let charge = second::charge(sum).into();
        #[cfg(feature = "library")]
        same("the library", sum, charge, second::library::jafrelin_charge(sum));
        same("the definition", sum, charge, defined.up_to(sum));
        same("no less than for a smaller sum", sum, charge, charge.max(before));
        before = charge;
        count += 1;
    }
    count
}

/// Ends the run with a report if two charges differ.
fn same(against: &str, sum: u32, charge: u64, other: u64) {
    if charge == other {
        return;
    }
    eprintln!("difference; compared with: {against}; kind: charges\nsum: {sum}");
    eprintln!("second: {charge:016x}, {} cents\nother: {other:016x}, {} cents", low(charge), low(other));
    process::exit(1);
}
