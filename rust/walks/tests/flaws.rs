//! The comparison can fail: each of these wrong walks has to be found, and shown by a case that a person can read.
//! A third walk, in another shape than the model's, goes wrong in one place; without a flaw it has to pass.

use model::{Answer, Rights};
use walks::case::{told, Case, LookedUp};
use walks::cover::Cover;
use walks::{compare, shrink};

const SEED: u64 = 0x7ab1_e9a7;
const PAIRS: u64 = 1_000_000;

#[derive(Clone, Copy, PartialEq, Eq)]
enum Flaw {
    Sound,
    // rights
    UpperWritableLost,
    UpperUserLost,
    UpperNoexecLost,
    RootsRightsLost,
    NoexecOfAll,
    RightsSwapped,
    // present and reserved bits
    PresentNotAsked,
    Bit7OfRootIsPage,
    Bit7OfRootIgnored,
    Bit7OfLastReserved,
    Bit7Ignored,
    PaddingMasked,
    PaddingKept,
    PaddingOf2MNotAsked,
    PaddingOf1GNotAsked,
    PaddingStartsAt12,
    PaddingStartsAt14,
    HighBitsReserved,
    AccessedAsked,
    GlobalReserved,
    // addresses
    Width51,
    Width48,
    HighBitsAreAddress,
    LowBitsOfCr3Added,
    HighBitsOfCr3Added,
    BaseNotRounded,
    OffsetInFrame,
    SizeOfTable,
    IndexMasked8,
    NoHole,
    SignAt46,
    SignAt48,
    LowerHalfOnly,
    Stripped,
    HoleFromOneMore,
    HoleToOneLess,
    BaseStripped,
    LastPageOfAllLost,
    NoAddressIsNothing,
    // the window
    OutsideIsNothing,
    OutsideBeforeNoAddress,
    OnlyEntryAsked,
    EndOneMore,
    EndOneLess,
    StartNotAsked,
    EndNotAsked,
    OriginRounded,
    PlaceWraps,
    LastPageLost,
    HighByteFirst,
    HalfWord,
    // what says nothing is not 0
    BaseOfNoAddress,
}
use Flaw::*;

/// From the root's entry, 3, down to the last table's, 0.
fn walk(flaw: Flaw, case: &Case) -> LookedUp {
    let window = case.window();
    let va = case.va;
    let extended = |bits: u32| ((va << (64 - bits)) as i64 >> (64 - bits)) as u64 == va;
    let is_address = match flaw {
        NoHole => true,
        SignAt46 => extended(47),
        SignAt48 => extended(49),
        LowerHalfOnly => va >> 47 == 0,
        Stripped => va >> 48 == 0,
        HoleFromOneMore => extended(48) || va == 1 << 47,
        HoleToOneLess => extended(48) || va == 0xffff_7fff_ffff_ffff,
        LastPageOfAllLost => extended(48) && va >> 12 != 0xf_ffff_ffff_ffff,
        _ => extended(48),
    };
    let outside = if flaw == OutsideIsNothing { Answer::Nothing } else { Answer::Outside };
    let mut none = LookedUp::from(if flaw == NoAddressIsNothing { Answer::Nothing } else { Answer::NoAddress });
    if flaw == BaseOfNoAddress {
        none.base = va;
    }
    if !is_address && flaw != OutsideBeforeNoAddress {
        return none;
    }
    let width = match flaw {
        Width51 => 51,
        Width48 => 48,
        _ => 52,
    };
    let address = |word: u64| word % (1 << width) / 4096 * 4096;
    let mut table = address(case.cr3);
    if flaw == LowBitsOfCr3Added {
        table += case.cr3 % 4096 / 8 * 8;
    }
    if flaw == HighBitsOfCr3Added {
        table = case.cr3 / 4096 * 4096;
    }
    let mut rights = Rights { writable: true, user: true, noexec: flaw == NoexecOfAll };
    for level in (0..4).rev() {
        let size: u64 = 4096 << (9 * level);
        let mut index = va / size % 512;
        if flaw == IndexMasked8 {
            index %= 256;
        }
        let Some(word) = read(flaw, window.bytes, window.origin, table, index) else { return outside.into() };
        if flaw == OutsideBeforeNoAddress && !is_address {
            return none;
        }
        let has = |bit: u32| word >> bit & 1 == 1;
        let padding = (word % size) >> 13 << 13;
        if !has(0) && flaw != PresentNotAsked {
            return Answer::Nothing.into();
        }
        let fault = (flaw == HighBitsReserved && word >> 52 & 0x7ff != 0)
            || (flaw == AccessedAsked && !has(5))
            || (flaw == GlobalReserved && has(8) && level > 0 && !has(7))
            || (flaw == Bit7OfLastReserved && level == 0 && has(7))
            || (flaw == PaddingKept && level > 0 && !has(7) && padding != 0);
        if fault {
            return Answer::Nothing.into();
        }
        let upper = level > 0 && !has(7);
        rights.writable &= has(1) || flaw == UpperWritableLost && upper || flaw == RootsRightsLost && level == 3;
        rights.user &= has(2) || flaw == UpperUserLost && upper || flaw == RootsRightsLost && level == 3;
        if flaw == NoexecOfAll {
            rights.noexec &= has(63);
        } else {
            rights.noexec |= has(63) && !(flaw == UpperNoexecLost && upper) && !(flaw == RootsRightsLost && level == 3);
        }
        let large = match flaw {
            Bit7Ignored => false,
            Bit7OfRootIgnored if level == 3 => false,
            _ => has(7),
        };
        if level > 0 && !large {
            table = if flaw == HighBitsAreAddress { word / 4096 * 4096 % (1 << 63) } else { address(word) };
            continue;
        }
        if level == 3 && flaw != Bit7OfRootIsPage {
            return Answer::Nothing.into();
        }
        let padded = match flaw {
            PaddingMasked => false,
            PaddingOf2MNotAsked => level == 2 && padding != 0,
            PaddingOf1GNotAsked => level == 1 && padding != 0,
            PaddingStartsAt12 => padding != 0 || has(12),
            PaddingStartsAt14 => padding >> 14 != 0,
            _ => padding != 0,
        };
        if level > 0 && padded {
            return Answer::Nothing.into();
        }
        let mut answer = LookedUp {
            kind: 1,
            base: va / size * size,
            size,
            frame: address(word) / size * size,
            rights: u64::from(rights.writable) | u64::from(rights.user) << 1 | u64::from(rights.noexec) << 2,
        };
        match flaw {
            BaseNotRounded => answer.base = va / 4096 * 4096,
            BaseStripped => answer.base %= 1 << 48,
            OffsetInFrame => answer.frame += va % size / 4096 * 4096,
            SizeOfTable => answer.size = 4096,
            RightsSwapped => answer.rights = answer.rights & 4 | answer.rights >> 1 & 1 | (answer.rights & 1) << 1,
            _ => {}
        }
        return answer;
    }
    unreachable!("the last table has pages only")
}

fn read(flaw: Flaw, bytes: &[u8], origin: u64, table: u64, index: u64) -> Option<u64> {
    let origin = if flaw == OriginRounded { origin / 4096 * 4096 } else { origin };
    let (table, start) = (u128::from(table), u128::from(origin));
    let entry = table + 8 * u128::from(index);
    let end = start + bytes.len() as u128;
    let (first, past) = if flaw == OnlyEntryAsked { (entry, entry + 8) } else { (table, table + 4096) };
    let past = match flaw {
        EndOneMore => past - 1,
        EndOneLess => past + 1,
        _ => past,
    };
    let wraps = flaw == PlaceWraps && start - start.min(table) < 4096;
    if first < start && flaw != StartNotAsked && !wraps {
        return None;
    }
    if past > end && flaw != EndNotAsked {
        return None;
    }
    if flaw == LastPageLost && table + 4096 >= 1 << 52 {
        return None;
    }
    // What is read outside is 0 here, where the compiled code would read anything.
    let byte = |i: u128| -> u64 {
        let place = (entry + i).checked_sub(start).and_then(|place| usize::try_from(place).ok());
        place.and_then(|place| bytes.get(place)).map_or(0, |byte| u64::from(*byte))
    };
    let word = (0..8).fold(0, |word, i| word | byte(i) << (8 * i));
    Some(match flaw {
        HighByteFirst => word.swap_bytes(),
        HalfWord => word & 0xffff_ffff,
        _ => word,
    })
}

/// Found within the pairs of one run, and then small.
fn found(flaw: Flaw) {
    let mut cover = Cover::default();
    let difference =
        compare(|case| walk(flaw, case), SEED, PAIRS, &mut cover).expect("the comparison sees no difference");
    let bad = |case: &Case| walk(flaw, case) != LookedUp::from(case.walk().answer);
    let case = shrink::shrink(difference.case, bad);
    println!("pair {}:\n{case}  by the flaw     {}", cover.pairs, walk(flaw, &case));
    assert!(bad(&case), "the smallest case is none");
    let words = case.words().filter(|at| case.word(*at) != 0).count();
    assert!(words <= 4, "{words} words are left");
}

macro_rules! flaws {
    ($($test:ident: $flaw:ident,)*) => { $(#[test] fn $test() { found($flaw) })* };
}

flaws! {
    upper_writable_lost: UpperWritableLost,
    upper_user_lost: UpperUserLost,
    upper_noexec_lost: UpperNoexecLost,
    roots_rights_lost: RootsRightsLost,
    noexec_of_all: NoexecOfAll,
    rights_swapped: RightsSwapped,
    present_not_asked: PresentNotAsked,
    bit_7_of_root_is_page: Bit7OfRootIsPage,
    bit_7_of_root_ignored: Bit7OfRootIgnored,
    bit_7_of_last_reserved: Bit7OfLastReserved,
    bit_7_ignored: Bit7Ignored,
    padding_masked: PaddingMasked,
    padding_kept: PaddingKept,
    padding_of_2m_not_asked: PaddingOf2MNotAsked,
    padding_of_1g_not_asked: PaddingOf1GNotAsked,
    padding_starts_at_12: PaddingStartsAt12,
    padding_starts_at_14: PaddingStartsAt14,
    high_bits_reserved: HighBitsReserved,
    accessed_asked: AccessedAsked,
    global_reserved: GlobalReserved,
    width_51: Width51,
    width_48: Width48,
    high_bits_are_address: HighBitsAreAddress,
    low_bits_of_cr3_added: LowBitsOfCr3Added,
    high_bits_of_cr3_added: HighBitsOfCr3Added,
    base_not_rounded: BaseNotRounded,
    offset_in_frame: OffsetInFrame,
    size_of_table: SizeOfTable,
    index_masked_8: IndexMasked8,
    no_hole: NoHole,
    sign_at_46: SignAt46,
    sign_at_48: SignAt48,
    lower_half_only: LowerHalfOnly,
    stripped: Stripped,
    hole_from_one_more: HoleFromOneMore,
    hole_to_one_less: HoleToOneLess,
    base_stripped: BaseStripped,
    last_page_of_all_lost: LastPageOfAllLost,
    no_address_is_nothing: NoAddressIsNothing,
    outside_is_nothing: OutsideIsNothing,
    outside_before_no_address: OutsideBeforeNoAddress,
    only_entry_asked: OnlyEntryAsked,
    end_one_more: EndOneMore,
    end_one_less: EndOneLess,
    start_not_asked: StartNotAsked,
    end_not_asked: EndNotAsked,
    origin_rounded: OriginRounded,
    place_wraps: PlaceWraps,
    last_page_lost: LastPageLost,
    high_byte_first: HighByteFirst,
    half_word: HalfWord,
    base_of_no_address: BaseOfNoAddress,
}

#[test]
fn without_a_flaw_none_is_found() {
    let mut cover = Cover::default();
    if let Some(difference) = compare(|case| walk(Sound, case), SEED, PAIRS, &mut cover) {
        panic!("{}  by the third walk {}", difference.case, walk(Sound, &difference.case));
    }
}

#[test]
fn words_are_told() {
    assert_eq!(told(0x8000_0000_0123_4007), "address 0x1234000, other bits 0 1 2 63");
    assert_eq!(told(0), "address 0x0, other bits none");
}
