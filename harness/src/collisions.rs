//! Names that all have one hash in the library's index of names: its worst input.
//! The hash is that of crates/name_index/specs/Hash.antt; nothing else here knows it.

use crate::other::FIELD;
use crate::random::Random;

const FACTORS: [u32; 2] = [668_265_263, 374_761_393];
const CHARACTERS: &[u8] = b"0123456789_abcdefghijklmnopqrstuvwxyzABCDEFGHIJKLMNOPQRSTUVWXYZ";

fn four(name: &[u8], at: usize) -> u32 {
    u32::from_le_bytes([name[at], name[at + 1], name[at + 2], name[at + 3]])
}

/// The state after whole eights of a name.
fn mixed(name: &[u8]) -> u64 {
    name.chunks_exact(8).fold(0, |state: u64, eight| {
        let low = (state % (1 << 32) + u64::from(four(eight, 0))) * u64::from(FACTORS[0]);
        let high = (state / (1 << 32) + u64::from(four(eight, 4))) * u64::from(FACTORS[1]);
        low + high
    })
}

/// The number that gives 1 when multiplied by an odd one, modulo 2^32.
fn inverse(odd: u32) -> u32 {
    (0..5).fold(odd, |x, _| {
        x.wrapping_mul(2u32.wrapping_sub(odd.wrapping_mul(x)))
    })
}

/// A name of 68 characters whose hash is 0, and whose first 56 are those of all such names.
pub fn name_of_hash_0(random: &Random) -> String {
    loop {
        let mut name = vec![b'h'; FIELD - 12];
        name.extend((0..8).map(|_| random.pick(CHARACTERS)));
        let state = mixed(&name);
        // The last eight bytes are 60 to 67, of which 64 to 67 are still free.
        let low = (state as u32).wrapping_add(four(&name, FIELD - 8));
        let wanted = 0u32.wrapping_sub(low.wrapping_mul(FACTORS[0]));
        let high = wanted.wrapping_mul(inverse(FACTORS[1]));
        let last = high.wrapping_sub((state >> 32) as u32).to_le_bytes();
        if last.iter().all(|b| CHARACTERS.contains(b)) {
            name.extend(last);
            return name.into_iter().map(char::from).collect();
        }
    }
}
