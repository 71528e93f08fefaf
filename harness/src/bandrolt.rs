//! The library's calls, made safe to call from Rust.
//! This file uses nothing else of the harness: copy it into a program that links libcomposer.a, libflat_table.a,
//! liborigins.a, libfactors.a and libsizes.a.

/// What flattening answers, laid out as `bandrolt_answer` in bandrolt.h.
///
/// An accepted recipe has number 0, place 0, its number of flat records and their bytes; a refused one has
/// its number, 1 to 13, 19 or 20, the place of that, and both counts 0.
#[repr(C)]
#[derive(Clone, Copy, Debug, PartialEq, Eq)]
pub struct Answer {
    pub number: u64,
    pub place: u64,
    pub count: u64,
    pub bytes: u64,
}

/// What the size answers, laid out as `bandrolt_size` in bandrolt.h.
///
/// `flat` is what flattening answers with room enough. An accepted recipe has the length of its longest flat name,
/// 0 without flat records; a refused one has 0.
#[repr(C)]
#[derive(Clone, Copy, Debug, PartialEq, Eq)]
pub struct Size {
    pub flat: Answer,
    pub longest: u64,
}

/// What flattening with factors answers, laid out as `bandrolt_factors_answer` in bandrolt.h.
///
/// `flat` is as flattening's answer. An accepted recipe has its number of companion entries; a refused one has 0.
#[repr(C)]
#[derive(Clone, Copy, Debug, PartialEq, Eq)]
pub struct FactorsAnswer {
    pub flat: Answer,
    pub entries: u64,
}

/// What the check answers, laid out as `bandrolt_table_answer` in bandrolt.h.
///
/// A closed table has number 0, place 0 and its number of records; a refused one has its
/// number, 14 to 17, the place of that, and count 0.
#[repr(C)]
#[derive(Clone, Copy, Debug, PartialEq, Eq)]
pub struct TableAnswer {
    pub number: u64,
    pub place: u64,
    pub count: u64,
}

/// What the walk back answers, laid out as `bandrolt_origin` in bandrolt.h.
///
/// A survivor's flat name has number 0, place 0, the depth, so many offsets of submodel records from main downward,
/// and the offset of the element record; the other offsets are 0. A refusal has its number, 1 to 12 or 18 to 20, the
/// place of that, and all else 0.
#[repr(C)]
#[derive(Clone, Copy, Debug, Default, PartialEq, Eq)]
pub struct Origin {
    pub number: u64,
    pub place: u64,
    pub depth: u64,
    pub submodel: [u64; 4],
    pub element: u64,
}

mod c {
    use super::{Answer, FactorsAnswer, Origin, Size, TableAnswer};

    extern "C" {
        pub fn bandrolt_flatten(
            recipe: *const u8,
            length: usize,
            table: *mut u8,
            room: usize,
        ) -> Answer;
        pub fn bandrolt_table_size(recipe: *const u8, length: usize) -> Size;
        pub fn bandrolt_flatten_with_factors(
            recipe: *const u8,
            length: usize,
            table: *mut u8,
            room: usize,
            companion: *mut u8,
            companion_room: usize,
        ) -> FactorsAnswer;
        pub fn bandrolt_check_table(table: *const u8, length: usize) -> TableAnswer;
        pub fn bandrolt_walk_back(
            recipe: *const u8,
            length: usize,
            name: *const u8,
            name_length: usize,
        ) -> Origin;
    }
}

/// Flattens a recipe, of any bytes and any length, into the beginning of `table`, of any length.
/// A refusal leaves `table` as it is, and so does acceptance with the bytes after the flat records.
pub fn flatten(recipe: &[u8], table: &mut [u8]) -> Answer {
    // SAFETY: pointers and lengths are those of two slices that don't overlap; the call reads the first,
    // writes within the second, and keeps neither.
    unsafe {
        c::bandrolt_flatten(
            recipe.as_ptr(),
            recipe.len(),
            table.as_mut_ptr(),
            table.len(),
        )
    }
}

/// Says how large the flat table of a recipe will be, of any bytes and any length.
pub fn table_size(recipe: &[u8]) -> Size {
    // SAFETY: pointer and length are those of a slice, which the call reads and doesn't keep.
    unsafe { c::bandrolt_table_size(recipe.as_ptr(), recipe.len()) }
}

/// Flattens a recipe, of any bytes and any length, into the beginning of `table`, and the time and extent factors of its
/// reactions and rate rules into that of `companion`, both of any length. A refusal leaves both as they are, and so does
/// acceptance with the bytes after the flat records and after the entries.
pub fn flatten_with_factors(
    recipe: &[u8],
    table: &mut [u8],
    companion: &mut [u8],
) -> FactorsAnswer {
    // SAFETY: pointers and lengths are those of three slices that don't overlap; the call reads the first,
    // writes within the others, and keeps none.
    unsafe {
        c::bandrolt_flatten_with_factors(
            recipe.as_ptr(),
            recipe.len(),
            table.as_mut_ptr(),
            table.len(),
            companion.as_mut_ptr(),
            companion.len(),
        )
    }
}

/// Checks a flat table, of any bytes and any length.
pub fn check_table(table: &[u8]) -> TableAnswer {
    // SAFETY: pointer and length are those of a slice, which the call reads and doesn't keep.
    unsafe { c::bandrolt_check_table(table.as_ptr(), table.len()) }
}

/// Walks back from a flat name to the records of a recipe; both of any bytes and any length.
pub fn walk_back(recipe: &[u8], name: &[u8]) -> Origin {
    // SAFETY: pointers and lengths are those of two slices, which the call reads and doesn't keep.
    unsafe { c::bandrolt_walk_back(recipe.as_ptr(), recipe.len(), name.as_ptr(), name.len()) }
}
