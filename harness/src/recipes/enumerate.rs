//! All choices of a few ports, marks and factors over small skeletons, in every order of the definitions.
//! A line with a question mark is a choice; each is there or not.

use super::text;

struct Skeleton {
    text: &'static str,
    most: usize,
}

/// A mark two levels below a port differs from one directly below only with four definitions, and
/// only in the place; that is why `m2` has a mark on each side of its port.
const SKELETONS: [Skeleton; 3] = [
    Skeleton {
        most: 5,
        text: "
            model top
              compartment c
              ? port t = .c
              ? delete a.m
              ? c replaced by a:q
              submodel a of mid
              ? port u = a:p
              ? replace a:p by c
              ? delete a:p
              ? c replaced by a.m
              ? port w = a.m
            model mid
              ? delete b.v
              ? replace b:r by m
              compartment m
              submodel b of low
              ? port p = b:r
              ? port q = .m
              ? port o = b.v
              ? m replaced by b:r
              ? delete b.v
              ? replace b.v by m
            model low
              port r = .v
              compartment v
              ? port i = .v
              species s -> v
        ",
    },
    Skeleton {
        most: 6,
        text: "
            model top
              compartment c
              submodel a of m1
              ? port t = a:p
              ? delete a:p
              ? replace a:p by c
              ? c replaced by a.e
            model m1
              compartment e
              ? delete b:p
              submodel b of m2
              ? port p = b:p
              ? replace b:p by e
              ? e replaced by b.f
              ? port o = .e
            model m2
              compartment f
              ? delete d.v
              submodel d of m3
              ? port p = d:p
              ? replace d:p by f
              ? delete d:p
              ? f replaced by d.v
            model m3
              compartment v
              species s -> v
              port p = .v
        ",
    },
    Skeleton {
        most: 4,
        text: "
            model top
              parameter c
              ? factors a time c
              submodel a of mid
              ? factors a extent a
              ? factors c
              ? delete a.f
              ? replace a.f by c
              ? c replaced by a.f
            model mid
              ? factors b time f extent f
              parameter f
              submodel b of low
              reaction r
              ? factors b time r
              ? delete b.g
              ? replace b.g by f
              ? f replaced by b.g
            model low
              parameter g
              rate-rule w -> g
              ? factors d extent g
              submodel d of in
              ? factors d
              ? factors d time x
            model in
              reaction q
        ",
    },
];

/// Shows each recipe of the enumeration to a function.
pub fn each_recipe(mut show: impl FnMut(&[u8])) {
    for Skeleton { text, most } in &SKELETONS {
        // Each record, and whether it is a choice.
        let mut definitions: Vec<Vec<(Vec<u8>, bool)>> = Vec::new();
        for line in text.lines().map(str::trim).filter(|line| !line.is_empty()) {
            let (is_choice, line) = match line.strip_prefix('?') {
                Some(line) => (true, line),
                None => (false, line),
            };
            let record = text::parse(line).expect("a record");
            match definitions.last_mut() {
                Some(definition) if record[0] != 1 => definition.push((record, is_choice)),
                _ => definitions.push(vec![(record, is_choice)]),
            }
        }
        let main = definitions.remove(0);
        for order in orders(definitions) {
            let records: Vec<&(Vec<u8>, bool)> =
                main.iter().chain(order.iter().flatten()).collect();
            choose(&records, *most, &mut Vec::new(), &mut show);
        }
    }
}

fn orders<T: Clone>(items: Vec<T>) -> Vec<Vec<T>> {
    if items.is_empty() {
        return vec![items];
    }
    let first = |i: usize| {
        let mut others = items.clone();
        let first = others.remove(i);
        let with_first = move |others: Vec<T>| [vec![first.clone()], others].concat();
        orders(others).into_iter().map(with_first)
    };
    (0..items.len()).flat_map(first).collect()
}

/// Goes on with what is chosen, without and with the next choice.
fn choose(
    records: &[&(Vec<u8>, bool)],
    most: usize,
    chosen: &mut Vec<u8>,
    show: &mut impl FnMut(&[u8]),
) {
    let Some(((record, is_choice), others)) = records.split_first() else {
        return show(chosen);
    };
    if *is_choice {
        choose(others, most, chosen, show);
    }
    if !is_choice || most > 0 {
        let length = chosen.len();
        chosen.extend(record);
        choose(others, most - usize::from(*is_choice), chosen, show);
        chosen.truncate(length);
    }
}
