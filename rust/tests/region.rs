//! The methods of a block as two numbers, beside arithmetic of 128 bits, also at the limits of both
//! fields.

use cubejobs::Region;
use std::collections::BTreeSet;

/// The ends of blocks of larger dimensions than this are above all numbers of 64 bits, like that of
/// this one.
const LARGE: u32 = 100;
const BASES: [u64; 12] = [0, 1, 3, 4, 8, 12, 1 << 20, 1 << 62, 1 << 63, u64::MAX - 8, u64::MAX - 1, u64::MAX];
const DIMS: [u32; 14] = [0, 1, 2, 3, 20, 62, 63, 64, 65, 66, 99, 128, 1 << 31, u32::MAX];

fn all() -> impl Iterator<Item = Region> {
    BASES.iter().flat_map(|&base| DIMS.iter().map(move |&dim| Region { base, dim }))
}

/// Returns the number after the last processor.
fn end(region: Region) -> u128 {
    u128::from(region.base) + (1 << region.dim.min(LARGE))
}

fn at_most_64_bits(number: u128) -> u64 {
    number.try_into().unwrap_or(u64::MAX)
}

#[test]
fn a_length_and_a_range_are_cut_off_at_64_bits() {
    for region in all() {
        assert_eq!(region.len(), at_most_64_bits(1 << region.dim.min(LARGE)), "{region:?}");
        assert_eq!(region.range(), region.base..at_most_64_bits(end(region)), "{region:?}");
    }
}

#[test]
fn a_block_has_the_processors_up_to_its_end() {
    for region in all() {
        for processor in BASES.iter().flat_map(|&it| [it.saturating_sub(1), it, it.saturating_add(1)]) {
            let is_in = region.base <= processor && u128::from(processor) < end(region);
            assert_eq!(region.contains(processor), is_in, "{region:?} {processor}");
        }
    }
}

#[test]
fn blocks_overlap_if_a_processor_is_in_both() {
    for (one, other) in all().flat_map(|one| all().map(move |other| (one, other))) {
        let first = one.base.max(other.base);
        let both = u128::from(first) < end(one).min(end(other));
        assert_eq!(one.overlaps(other), both, "{one:?} {other:?}");
    }
}

#[test]
fn halves_are_the_two_parts_of_a_block() {
    for region in all() {
        let middle = end(Region { dim: region.dim.saturating_sub(1), ..region });
        let Some((lower, upper)) = region.halves() else {
            assert!(region.dim == 0 || middle > u64::MAX.into(), "{region:?} has no halves");
            continue;
        };
        assert_eq!((lower.base, u128::from(upper.base)), (region.base, middle), "{region:?}");
        assert_eq!((lower.dim, upper.dim), (region.dim - 1, region.dim - 1));
        assert_eq!((end(lower), end(upper)), (middle, end(region)));
    }
}

#[test]
fn blocks_are_in_the_order_of_their_numbers() {
    let in_order: Vec<Region> = all().collect::<BTreeSet<_>>().into_iter().collect();
    let mut pairs: Vec<(u64, u32)> = all().map(|it| (it.base, it.dim)).collect();
    pairs.sort_unstable();
    assert_eq!(in_order.iter().map(|it| (it.base, it.dim)).collect::<Vec<_>>(), pairs);
}

#[test]
fn a_block_is_written_as_a_range() {
    let text = |base, dim| Region { base, dim }.to_string();
    assert_eq!(text(0, 0), "0..1");
    assert_eq!(text(8, 3), "8..16");
    assert_eq!(text(0, 63), "0..9223372036854775808");
    assert_eq!(text(u64::MAX - 8, 3), "18446744073709551607..18446744073709551615");
    assert_eq!(text(u64::MAX, 0), "18446744073709551615..18446744073709551615+2^0");
    assert_eq!(text(8, 64), "8..8+2^64");
    assert_eq!(text(0, u32::MAX), "0..0+2^4294967295");
}
