//! The rules that `slow` follows: those of 01 and of 02's factors, and bent ones.
//! The bent ones, the mutants, are wrong programs that the generated recipes must tell from these.

use super::slow::Side::{self, Inner, Outer};
use super::slow::{Kind, Part};
use crate::other::rules::{Row, CLASS_TABLE};
use crate::other::{MAX_RECIPE, NAME};
use std::ops::RangeInclusive;

/// Which of an instance's elements and submodels come first in the table.
#[derive(Clone, Copy, PartialEq)]
pub(super) enum TreeOrder {
    DepthFirst,
    BreadthFirst,
    SubmodelsFirst,
    /// Elements and subtrees as their records come.
    AsRecorded,
}

/// What a replaced-by does.
#[derive(Clone, Copy, PartialEq)]
pub(super) enum ReplacedBy {
    OwnerGoes,
    TargetGoes,
    BothStay,
}

/// The names of a kind 8 record's factors.
type Factors<'a> = [&'a [u8]; 2];

/// How many underscores are needed for the names of these sides of a submodel.
type Needed<'a> = &'a dyn Fn(&[Side]) -> usize;

/// The rules of a flattening program; the default ones are 01's and 02's.
pub struct Rules {
    pub(super) longest_recipe: usize,
    pub(super) any_first_record: bool,
    /// How many kinds are known.
    pub(super) kinds: usize,
    /// When a number from 3 to 12, 19 or 20 is judged; those of one rank go by place alone. 13 has rank 26.
    pub(super) rank: fn(u64) -> u64,
    /// May a name have digits behind its first character?
    pub(super) digits: bool,
    pub(super) padding_is_zero: bool,
    /// May this part of a record of this kind end with an underscore?
    pub(super) may_end_with_underscore: fn(Kind, Part) -> bool,
    /// How many bytes of two names are compared.
    pub(super) compared: usize,
    /// Have records of these two kinds one space of names?
    pub(super) one_space: fn(Kind, Kind) -> bool,
    pub(super) second_replaced_by: bool,
    pub(super) second_factors_are_4: bool,
    pub(super) class_table: [Row; 7],
    /// May what is at the second place be a parent, owner or model at the first?
    pub(super) parent_at: fn(usize, usize) -> bool,
    pub(super) owner_at: fn(usize, usize) -> bool,
    pub(super) model_at: fn(usize, usize) -> bool,
    pub(super) port_to_own_port: bool,
    /// May both factors of a kind 8 record be blank?
    pub(super) blank_factors: bool,
    pub(super) lost_factors_are_5: bool,
    /// May what a record of this kind declares be given factors, and at the second place by a record at the first?
    pub(super) given_factors: fn(Kind) -> bool,
    pub(super) submodel_at: fn(usize, usize) -> bool,
    /// Is a submodel given factors twice by two records with these?
    pub(super) given_twice: fn(Factors, Factors) -> bool,
    pub(super) earlier_factors: bool,
    pub(super) unused_for_19: bool,
    pub(super) unused_cycles: bool,
    pub(super) ways_to_cycles: bool,
    pub(super) max_instances: usize,
    pub(super) max_depth: usize,
    pub(super) max_elements: usize,
    pub(super) gone_count_for_7: bool,
    /// Are these numbers judged in definitions without an instance?
    pub(super) unused_for_8: bool,
    pub(super) unused_for_9: bool,
    pub(super) unused_for_10: bool,
    pub(super) unused_for_12: bool,
    /// Is a record at fault that leads to a port which leads nowhere?
    pub(super) through_broken_ports: bool,
    /// Do two marks of these kinds conflict if they have one target?
    pub(super) marks_conflict: fn(Kind, Kind) -> bool,
    /// Does a replaced-by conflict with a record of this kind that has its owner as target?
    pub(super) owner_conflicts: fn(Kind) -> bool,
    /// Do two ports conflict whose instances are the same or not?
    pub(super) ports_conflict: fn(bool) -> bool,
    /// Do a mark and a port conflict, if the mark's depth is so much below the port's?
    pub(super) mark_and_port_conflict: fn(isize) -> bool,
    pub(super) by_written_names: bool,
    pub(super) earlier_is_reported: bool,
    /// Is a mark of this kind judged by 10?
    pub(super) judged_by_10: fn(Kind) -> bool,
    pub(super) replaced_by: ReplacedBy,
    /// Do the children of an element go that is the target of a mark of this kind, or owns it?
    pub(super) takes_children: fn(Kind) -> bool,
    pub(super) chain_steps: usize,
    pub(super) gone_targets: bool,
    pub(super) gone_for_12: bool,
    pub(super) gone_ends: bool,
    pub(super) undeclared_factors: bool,
    pub(super) gone_factors: bool,
    pub(super) factor_classes: &'static [u8],
    pub(super) factor_steps: usize,
    pub(super) all_instances_for_20: bool,
    pub(super) unused_for_20: bool,
    /// Is 20 judged for factors that no entry shows?
    pub(super) unshown_for_20: bool,
    pub(super) first_in_tree_for_20: bool,
    pub(super) spare_room: usize,
    pub(super) spare_companion: usize,
    /// Is a companion that is too short filled as far as it goes?
    pub(super) short_companion: bool,
    /// Is the table written before the companion's length is looked at?
    pub(super) table_goes_first: bool,
    pub(super) order_of_tree: TreeOrder,
    /// Are names of records of this kind tried?
    pub(super) tried: fn(Kind) -> bool,
    pub(super) gone_names: bool,
    /// How many underscores are tried.
    pub(super) underscores: RangeInclusive<usize>,
    /// Does a name take a prefix?
    pub(super) takes: fn(&[u8], &[u8]) -> bool,
    /// How many underscores are written of those that are needed.
    pub(super) written: fn(Needed) -> usize,
    /// Is a prefix written, by its number from main downward, by how many there are, and by the
    /// number of the submodel in its definition?
    pub(super) prefixed: fn(usize, usize, usize) -> bool,
    pub(super) nothing_is_written: bool,
    pub(super) rest_is_zeroed: bool,
    pub(super) gone_counted: bool,
    /// Has a survivor of this class an entry, and with which kind byte?
    pub(super) entered: fn(u8) -> bool,
    pub(super) entry_kind: fn(u8) -> u8,
    pub(super) gone_entered: bool,
    /// The number of the field for the submodel at this depth, of so many, and for its time (0) or extent factor (1).
    pub(super) field_of: fn(usize, usize, usize) -> usize,
    /// Is it the end of the chain from a factor that is shown?
    pub(super) end_is_shown: bool,
    pub(super) companion_is_zeroed: bool,
}

/// Twice 01's number; 19 comes after 5, and 20 after 12.
fn in_order(number: u64) -> u64 {
    match number {
        19 => 11,
        20 => 25,
        other => 2 * other,
    }
}

impl Default for Rules {
    fn default() -> Self {
        Rules {
            longest_recipe: MAX_RECIPE,
            any_first_record: false,
            kinds: 8,
            rank: in_order,
            digits: true,
            padding_is_zero: true,
            may_end_with_underscore: |kind, part| (kind, part) != (Kind::Submodel, Part::Name),
            compared: NAME,
            one_space: |a, b| (a == Kind::Port) == (b == Kind::Port),
            second_replaced_by: false,
            second_factors_are_4: false,
            class_table: CLASS_TABLE,
            parent_at: |place, parent| parent < place,
            owner_at: |_, _| true,
            model_at: |_, _| true,
            port_to_own_port: false,
            blank_factors: true,
            lost_factors_are_5: false,
            given_factors: |kind| kind == Kind::Submodel,
            submodel_at: |_, _| true,
            given_twice: |_, _| true,
            earlier_factors: false,
            unused_for_19: true,
            unused_cycles: true,
            ways_to_cycles: false,
            max_instances: 64,
            max_depth: 4,
            max_elements: 1_024,
            gone_count_for_7: true,
            unused_for_8: true,
            unused_for_9: false,
            unused_for_10: true,
            unused_for_12: false,
            through_broken_ports: true,
            marks_conflict: |_, _| true,
            owner_conflicts: |_| true,
            ports_conflict: |same_instance| same_instance,
            mark_and_port_conflict: |below| below >= 0,
            by_written_names: false,
            earlier_is_reported: false,
            judged_by_10: |kind| kind != Kind::Deletion,
            replaced_by: ReplacedBy::OwnerGoes,
            takes_children: |_| true,
            chain_steps: usize::MAX,
            gone_targets: false,
            gone_for_12: false,
            gone_ends: false,
            undeclared_factors: false,
            gone_factors: false,
            factor_classes: &[3],
            factor_steps: usize::MAX,
            all_instances_for_20: true,
            unused_for_20: false,
            unshown_for_20: true,
            first_in_tree_for_20: false,
            spare_room: 0,
            spare_companion: 0,
            short_companion: false,
            table_goes_first: false,
            order_of_tree: TreeOrder::DepthFirst,
            tried: |kind| matches!(kind, Kind::Element | Kind::Submodel),
            gone_names: true,
            underscores: 2..=12,
            takes: |name, prefix| name.starts_with(prefix),
            written: |needed| needed(&Side::BOTH),
            prefixed: |_, _, _| true,
            nothing_is_written: false,
            rest_is_zeroed: false,
            gone_counted: false,
            entered: |class| class == 4 || class == 6,
            entry_kind: |_| 8,
            gone_entered: false,
            field_of: |depth, _, which| 4 * which + depth,
            end_is_shown: true,
            companion_is_zeroed: false,
        }
    }
}

type Bend = fn(&mut Rules);

impl Rules {
    pub fn bent(bend: Bend) -> Self {
        let mut rules = Rules::default();
        bend(&mut rules);
        rules
    }
}

/// Each mutant's error, and the rule bent to make it.
pub const MUTANTS: &[(&str, Bend)] = &[
    // Reading.
    ("16,385 bytes may be", |r| r.longest_recipe = MAX_RECIPE + 1),
    ("16,384 bytes may not be", |r| {
        r.longest_recipe = MAX_RECIPE - 1
    }),
    ("the first record may be of any kind", |r| {
        r.any_first_record = true
    }),
    ("a name has no digits", |r| r.digits = false),
    ("bytes after the padding's first are ignored", |r| {
        r.padding_is_zero = false
    }),
    ("a submodel's name may end with an underscore", |r| {
        r.may_end_with_underscore = |_, _| true
    }),
    ("its model's name may not, either", |r| {
        r.may_end_with_underscore = |kind, _| kind != Kind::Submodel
    }),
    ("an element's name may not, either", |r| {
        r.may_end_with_underscore =
            |kind, part| !matches!((kind, part), (Kind::Element | Kind::Submodel, Part::Name))
    }),
    ("names are compared in 11 bytes", |r| r.compared = 11),
    ("submodels and elements have spaces of their own", |r| {
        r.one_space = |a, b| a == b
    }),
    ("ports and elements have one space", |r| {
        r.one_space = |_, _| true
    }),
    ("an owner may have two replaced-bys", |r| {
        r.second_replaced_by = true
    }),
    ("a parent may be later", |r| r.parent_at = |_, _| true),
    ("an owner must be earlier", |r| {
        r.owner_at = |place, owner| owner < place
    }),
    ("a model must be earlier", |r| {
        r.model_at = |place, model| model < place
    }),
    ("a local parameter's parent may be blank", |r| {
        r.class_table[6].parent.blank = true
    }),
    ("a blank-submodel port may name a port", |r| {
        r.port_to_own_port = true
    }),
    ("5 is judged before 4", |r| {
        r.rank = |number| match number {
            4 => in_order(5),
            5 => in_order(4),
            other => in_order(other),
        }
    }),
    ("3 to 5 go by place", |r| {
        r.rank = |number| in_order(number).max(in_order(5))
    }),
    ("a cycle may be where main doesn't reach", |r| {
        r.unused_cycles = false
    }),
    ("a definition that leads to a cycle is refused", |r| {
        r.ways_to_cycles = true
    }),
    // The tree.
    ("64 instances without main", |r| r.max_instances = 65),
    ("63 instances with main", |r| r.max_instances = 63),
    ("depth 5 may be", |r| r.max_depth = 5),
    ("depth 4 may not be", |r| r.max_depth = 3),
    ("1,025 elements may be", |r| r.max_elements = 1_025),
    ("1,024 elements may not be", |r| r.max_elements = 1_023),
    ("7 counts survivors only", |r| r.gone_count_for_7 = false),
    // Targets and conflicts.
    ("8 is judged in the tree only", |r| r.unused_for_8 = false),
    ("8 is at the broken port only", |r| {
        r.through_broken_ports = false
    }),
    ("9 is judged in unused definitions", |r| {
        r.unused_for_9 = true
    }),
    ("two replaced-bys may have one target", |r| {
        r.marks_conflict = |a, b| (a, b) != (Kind::ReplacedBy, Kind::ReplacedBy)
    }),
    ("two deletions may have one target", |r| {
        r.marks_conflict = |a, b| (a, b) != (Kind::Deletion, Kind::Deletion)
    }),
    ("two marks may have one target", |r| {
        r.marks_conflict = |_, _| false
    }),
    ("a replaced-by's owner may be a port's target", |r| {
        r.owner_conflicts = |kind| kind != Kind::Port
    }),
    ("a replaced-by's owner may be a mark's target", |r| {
        r.owner_conflicts = |kind| kind == Kind::Port
    }),
    ("two ports of one instance may have one target", |r| {
        r.ports_conflict = |_| false
    }),
    ("two ports of different instances may not", |r| {
        r.ports_conflict = |_| true
    }),
    ("mark and port conflict the other way round", |r| {
        r.mark_and_port_conflict = |below| below <= 0
    }),
    ("mark and port conflict wherever they are", |r| {
        r.mark_and_port_conflict = |_| true
    }),
    ("they conflict in one instance only", |r| {
        r.mark_and_port_conflict = |below| below == 0
    }),
    ("they conflict only if the mark is below", |r| {
        r.mark_and_port_conflict = |below| below > 0
    }),
    ("lies below means directly below", |r| {
        r.mark_and_port_conflict = |below| below == 0 || below == 1
    }),
    ("targets are compared as written", |r| {
        r.by_written_names = true
    }),
    ("the earlier record of a conflict is reported", |r| {
        r.earlier_is_reported = true
    }),
    ("10 is judged in the tree only", |r| r.unused_for_10 = false),
    ("10 is judged for replacements only", |r| {
        r.judged_by_10 = |kind| kind == Kind::Replacement
    }),
    ("10 is judged before 9", |r| {
        r.rank = |number| match number {
            9 => in_order(10),
            10 => in_order(9),
            other => in_order(other),
        }
    }),
    ("9 to 12 go by place", |r| {
        r.rank = |number| match number {
            9..=12 => in_order(9),
            other => in_order(other),
        }
    }),
    // Gone, and the chain.
    ("a replaced-by steps to the owner", |r| {
        r.replaced_by = ReplacedBy::TargetGoes
    }),
    ("a replaced-by's owner stays", |r| {
        r.replaced_by = ReplacedBy::BothStay
    }),
    ("children of a gone reaction stay", |r| {
        r.takes_children = |_| false
    }),
    ("children of a replaced reaction stay", |r| {
        r.takes_children = |kind| kind == Kind::Deletion
    }),
    ("no chain step", |r| r.chain_steps = 0),
    ("one chain step", |r| r.chain_steps = 1),
    ("two chain steps", |r| r.chain_steps = 2),
    ("four chain steps", |r| r.chain_steps = 4),
    ("a replaced-by's target may be gone", |r| {
        r.gone_targets = true
    }),
    ("12 is judged for gone elements", |r| r.gone_for_12 = true),
    ("12 is judged in unused definitions", |r| {
        r.unused_for_12 = true
    }),
    ("a chain may end at a gone element", |r| r.gone_ends = true),
    ("a reference may be of any class", |r| {
        r.class_table[1].reference.classes = &[1, 2, 3, 4, 5, 6, 7]
    }),
    ("a reaction's reference may not be blank", |r| {
        r.class_table[3].reference.blank = false
    }),
    // The flat table.
    ("output must have a byte to spare", |r| r.spare_room = 1),
    ("the tree is breadth-first", |r| {
        r.order_of_tree = TreeOrder::BreadthFirst
    }),
    ("submodels come before elements", |r| {
        r.order_of_tree = TreeOrder::SubmodelsFirst
    }),
    ("elements and submodels come as recorded", |r| {
        r.order_of_tree = TreeOrder::AsRecorded
    }),
    ("the prefix is tried on inner names only", |r| {
        r.written = |needed| needed(&[Inner])
    }),
    ("the prefix is tried on outer names only", |r| {
        r.written = |needed| needed(&[Outer])
    }),
    ("the prefix is tried on elements only", |r| {
        r.tried = |kind| kind == Kind::Element
    }),
    ("the prefix is tried on submodels only", |r| {
        r.tried = |kind| kind == Kind::Submodel
    }),
    ("the prefix is tried on ports, too", |r| {
        r.tried = |kind| matches!(kind, Kind::Element | Kind::Port | Kind::Submodel)
    }),
    ("gone elements don't count for prefixes", |r| {
        r.gone_names = false
    }),
    ("one underscore is enough", |r| r.underscores = 1..=12),
    ("three underscores are the most", |r| r.underscores = 2..=3),
    ("eleven underscores are the most", |r| {
        r.underscores = 2..=11
    }),
    ("outer names are forgotten if inner need three", |r| {
        r.written = |needed| match needed(&[Inner]) {
            2 => needed(&[Outer]),
            more => more,
        }
    }),
    ("the longest run is added to two", |r| {
        r.written = |needed| match needed(&Side::BOTH) {
            2 => 2,
            more => 2 + (more - 1),
        }
    }),
    ("one underscore fewer is written than counted", |r| {
        r.written = |needed| needed(&Side::BOTH) - 1
    }),
    ("as many underscores as the longest run has", |r| {
        r.takes = |name, prefix| {
            let rest = name.strip_prefix(prefix);
            rest.is_some_and(|rest| rest.starts_with(b"_"))
        }
    }),
    ("a name that is the prefix doesn't take it", |r| {
        r.takes = |name, prefix| name.starts_with(prefix) && name != prefix
    }),
    ("only the first prefix is written", |r| {
        r.prefixed = |number, _, _| number == 0
    }),
    ("only the last prefix is written", |r| {
        r.prefixed = |number, all, _| number + 1 == all
    }),
    ("only the first submodel's names are prefixed", |r| {
        r.prefixed = |_, _, submodel| submodel == 0
    }),
    ("accepted, and nothing is written", |r| {
        r.nothing_is_written = true
    }),
    ("always 13", |r| r.spare_room = usize::MAX / 2),
    ("always 7", |r| r.max_instances = 0),
    ("bytes after the records are zeroed", |r| {
        r.rest_is_zeroed = true
    }),
    ("the count has gone elements", |r| r.gone_counted = true),
    // Kind 8.
    ("kind 8 is unknown", |r| r.kinds = 7),
    ("both factors may not be blank", |r| r.blank_factors = false),
    ("kind 8's submodel may not end with an underscore", |r| {
        r.may_end_with_underscore = |kind, part| {
            !matches!(
                (kind, part),
                (Kind::Submodel, Part::Name) | (Kind::Factors, Part::Submodel)
            )
        }
    }),
    ("factors given twice are 4", |r| {
        r.second_factors_are_4 = true
    }),
    // The order of judging.
    ("19 is judged before 5", |r| {
        r.rank = |number| match number {
            19 => in_order(5) - 1,
            other => in_order(other),
        }
    }),
    ("19 is judged after 6", |r| {
        r.rank = |number| match number {
            19 => in_order(6) + 1,
            other => in_order(other),
        }
    }),
    ("20 is judged before 12", |r| {
        r.rank = |number| match number {
            20 => in_order(12) - 1,
            other => in_order(other),
        }
    }),
    ("20 is judged after 13", |r| {
        r.rank = |number| match number {
            20 => in_order(13) + 1,
            other => in_order(other),
        }
    }),
    ("19 and 20 are judged by their numbers", |r| {
        r.rank = |number| 2 * number
    }),
    // 19.
    ("19 is judged in the tree only", |r| r.unused_for_19 = false),
    ("an element may be given factors", |r| {
        r.given_factors = |_| true
    }),
    ("factors must be behind their submodel", |r| {
        r.submodel_at = |place, submodel| submodel < place
    }),
    ("factors of no submodel are 5", |r| {
        r.lost_factors_are_5 = true
    }),
    ("blank factors don't count as given", |r| {
        r.given_twice = |first, _| first.iter().any(|name| !name.is_empty())
    }),
    ("the same factors may be given again", |r| {
        r.given_twice = |first, second| first != second
    }),
    ("the earlier kind 8 is reported", |r| {
        r.earlier_factors = true
    }),
    // 20.
    ("20 is judged in unused definitions", |r| {
        r.unused_for_20 = true
    }),
    ("20 is judged where an entry shows the factor", |r| {
        r.unshown_for_20 = false
    }),
    ("20 is judged in the first instance only", |r| {
        r.all_instances_for_20 = false
    }),
    ("20 is at the tree's first", |r| {
        r.first_in_tree_for_20 = true
    }),
    ("an undeclared factor is a blank", |r| {
        r.undeclared_factors = true
    }),
    ("a factor may end gone", |r| r.gone_factors = true),
    ("a factor may be of any class", |r| {
        r.factor_classes = &[1, 2, 3, 4, 5, 6, 7]
    }),
    ("a factor may be a local parameter", |r| {
        r.factor_classes = &[3, 7]
    }),
    ("a factor's chain is not followed", |r| r.factor_steps = 0),
    ("a factor's chain has one step", |r| r.factor_steps = 1),
    // The entries.
    ("reactions alone have entries", |r| {
        r.entered = |class| class == 4
    }),
    ("rate rules alone have entries", |r| {
        r.entered = |class| class == 6
    }),
    ("all survivors have entries", |r| r.entered = |_| true),
    ("gone reactions have entries", |r| r.gone_entered = true),
    ("an entry begins with the class", |r| {
        r.entry_kind = |class| class
    }),
    ("fields go from the element upward", |r| {
        r.field_of = |depth, all, which| 4 * which + all + 1 - depth
    }),
    ("time and extent fields take turns", |r| {
        r.field_of = |depth, _, which| 2 * depth - 1 + which
    }),
    ("extent fields come first", |r| {
        r.field_of = |depth, _, which| 4 * (1 - which) + depth
    }),
    ("a field has the factor's own name", |r| {
        r.end_is_shown = false
    }),
    // 13 with a companion.
    ("the companion must have a byte to spare", |r| {
        r.spare_companion = 1
    }),
    ("a short companion is filled", |r| r.short_companion = true),
    (
        "the table is written before the companion is found short",
        |r| r.table_goes_first = true,
    ),
    ("bytes after the entries are zeroed", |r| {
        r.companion_is_zeroed = true
    }),
];
