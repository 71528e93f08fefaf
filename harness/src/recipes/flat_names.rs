//! Names to walk back in a recipe: those of its elements, and others that are nearly so.

use super::draft::pick;
use crate::other::recipe::slow::Element;
use crate::other::rules::before_zero;
use crate::other::FIELD;
use crate::random::Random;

/// The names of survivors and of gone elements: all, or so many drawn of each where there are more.
pub fn of_elements(elements: &[Element], most: usize, random: &Random) -> Vec<Vec<u8>> {
    let of_fate = |is_gone: bool| {
        let alike = elements.iter().filter(|element| element.is_gone == is_gone);
        let mut alike: Vec<&Element> = alike.collect();
        if alike.len() > most {
            alike = (0..most).map(|_| random.pick(&alike)).collect();
        }
        alike
    };
    let chosen = [false, true].into_iter().flat_map(of_fate);
    let padded = |element: &Element| {
        let mut name = element.flat_name.clone();
        name.resize(FIELD, 0);
        name
    };
    chosen.map(padded).collect()
}

/// Each damage, done to one of these names.
pub fn damaged(names: &[Vec<u8>], random: &Random) -> Vec<Vec<u8>> {
    let damaged = |damage: &Damage| {
        let mut name = names[random.below(names.len())].clone();
        damage(&mut name, random);
        name
    };
    DAMAGES.iter().map(damaged).collect()
}

/// What is done to a name of 68 bytes.
type Damage = fn(&mut Vec<u8>, &Random);

const DAMAGES: &[Damage] = &[
    // One byte is another: anywhere, or at the name's or the field's end.
    |name, random| change(name, random.below(FIELD), random),
    |name, random| {
        let end = before_zero(name).len();
        let ends = [end.saturating_sub(1), end.min(FIELD - 1), FIELD - 1];
        change(name, random.pick(&ends), random);
    },
    // Cut, and nothing left of it; one zero more.
    |name, random| name.truncate(random.below(FIELD)),
    |name, _| name.clear(),
    |name, _| name.push(0),
    // Blank.
    |name, _| name.fill(0),
    // One underscore more or less.
    |name, random| {
        name.insert(underscore(name, random), b'_');
        name.truncate(FIELD);
    },
    |name, random| {
        name.remove(underscore(name, random));
        name.push(0);
    },
];

fn change(name: &mut [u8], place: usize, random: &Random) {
    let byte = random.pick(&[0, b'_', b'a', b'0', random.byte()]);
    // A byte that is already there becomes another one.
    name[place] = if byte == name[place] { byte ^ 1 } else { byte };
}

/// The place of an underscore, or any place if there is none.
fn underscore(name: &[u8], random: &Random) -> usize {
    let places = (0..name.len()).filter(|&i| name[i] == b'_');
    let places: Vec<usize> = places.collect();
    pick(&places, random).unwrap_or_else(|| random.below(name.len()))
}
