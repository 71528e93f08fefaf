//! 01's classes and class table, for the table check and for flattening.
//! Parents and references are judged apart: in a recipe they come under different numbers.

use Class::*;
use Link::*;

#[derive(Clone, Copy, PartialEq, Eq)]
pub enum Class {
    Compartment = 1,
    Species,
    Parameter,
    Reaction,
    SpeciesReference,
    RateRule,
    LocalParameter,
}

impl Class {
    pub fn read(byte: u8) -> Option<Self> {
        Some(match byte {
            1 => Compartment,
            2 => Species,
            3 => Parameter,
            4 => Reaction,
            5 => SpeciesReference,
            6 => RateRule,
            7 => LocalParameter,
            _ => return None,
        })
    }

    pub fn allows_parent(self, parent: Link<Class>) -> bool {
        matches!(
            (self, parent),
            (SpeciesReference | LocalParameter, To(Reaction))
                | (
                    Compartment | Species | Parameter | Reaction | RateRule,
                    Blank
                )
        )
    }

    pub fn allows_reference(self, reference: Link<Class>) -> bool {
        matches!(
            (self, reference),
            (Compartment | Parameter | LocalParameter, Blank)
                | (Species, To(Compartment))
                | (Reaction, Blank | To(Compartment))
                | (SpeciesReference, To(Species))
                | (RateRule, To(Compartment | Species | Parameter))
        )
    }
}

/// What a parent or reference field leads to.
#[derive(Clone, Copy)]
pub enum Link<T> {
    Blank,
    To(T),
    Nowhere,
}

impl<T> Link<T> {
    pub fn map<U>(self, to: impl FnOnce(T) -> U) -> Link<U> {
        match self {
            Blank => Blank,
            To(there) => To(to(there)),
            Nowhere => Nowhere,
        }
    }
}
