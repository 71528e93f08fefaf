//! The other program's flattening, size and walk back: 01 and 02 as one would write them in Rust, with hash maps for names.
//! It is what the library is compared with. `slow` stands beside it, and follows rules that can be bent.

mod definitions;
mod factors;
mod flat;
mod marks;
mod origin;
mod records;
pub mod rules;
pub mod sizers;
pub mod slow;
mod targets;
mod tree;
pub mod walkers;

use super::Refusal;
use crate::bandrolt::{Answer, FactorsAnswer, Origin, Size};
pub use flat::Flat;
use marks::Fates;
use targets::Targets;
use tree::Tree;

/// Rows 1 to 12, with 19 after 5 and 20 after 12: the first that applies is given, then its lowest place.
pub fn judge(recipe: &[u8]) -> Result<Flat, Refusal> {
    let recipe = definitions::read(recipe)?;
    let tree = Tree::walk(&recipe)?;
    let targets = Targets::resolve(&recipe)?;
    let mut fates = Fates::of(&recipe, &tree, &targets)?;
    targets.check_classes(&recipe)?;
    fates.take_children(&recipe, &tree);
    fates.check_replaced_by()?;
    Flat::of(recipe, tree, &fates)
}

/// The whole: the answer, and on acceptance the flat records at the table's beginning.
pub fn flatten(recipe: &[u8], table: &mut [u8]) -> Answer {
    let written = judge(recipe).and_then(|flat| {
        flat.write(table)?;
        Ok(flat.count())
    });
    written.into()
}

/// The same, and on acceptance the factors' entries at the companion's beginning.
pub fn flatten_with_factors(
    recipe: &[u8],
    table: &mut [u8],
    companion: &mut [u8],
) -> FactorsAnswer {
    let written = judge(recipe).and_then(|flat| {
        flat.write_with_factors(table, companion)?;
        Ok((flat.count(), flat.entries()))
    });
    written.into()
}

/// How large the table will be.
pub fn table_size(recipe: &[u8]) -> Size {
    let sized = judge(recipe).map(|flat| (flat.count(), flat.longest_name()));
    sized.into()
}

/// Where a flat name comes from.
pub fn walk_back(recipe: &[u8], name: &[u8]) -> Origin {
    judge(recipe).and_then(|flat| flat.walk_back(name)).into()
}
