//! Recipes as text that grow with a size, for the benchmarks and for the greatest that is compared.

/// A hall with reactors of 8 elements, each of them in the hall's volume and at its temperature.
pub fn plant(instances: usize) -> String {
    let reactors: String = (1..instances)
        .map(|i| {
            format!(
                "submodel unit{i} of reactor
                 replace unit{i}:volume by hall
                 replace unit{i}.heat by heat\n"
            )
        })
        .collect();
    format!(
        "model plant
         compartment hall\nspecies broth -> hall\nspecies feed -> hall\nparameter heat\nparameter flow
         reaction dilute -> hall\nspecies-reference d in dilute -> feed\nrate-rule growth -> broth
         {reactors}
         model reactor
         compartment v\nspecies biomass -> v\nspecies sugar -> v\nparameter heat\nparameter k
         reaction grow -> v\nspecies-reference q in grow -> sugar\nlocal-parameter rate in grow
         port volume = .v"
    )
}

/// Main, and below it submodels with eight submodels each; 16 elements in every instance, named by a stem and a digit.
pub fn tree(instances: usize, stem: &str) -> String {
    let species: String = (1..=10)
        .map(|i| format!("species @{i:x} -> @0\n"))
        .collect();
    let elements = format!(
        "compartment @0\n{species}parameter @b\nreaction @c -> @0\nspecies-reference @d in @c -> @1
         rate-rule @e -> @b\nlocal-parameter @f in @c\n"
    );
    let elements = elements.replace('@', stem);
    let submodels = |count: usize, model: &str| -> String {
        (0..count)
            .map(|i| format!("submodel sub{i} of {model}\n"))
            .collect()
    };
    let main = submodels((instances - 1) / 9, "mid");
    let mid = submodels(8, "low");
    format!("model top\n{elements}{main}model mid\n{elements}{mid}model low\n{elements}")
}

/// Species in one compartment, with no submodel.
pub fn one_definition(elements: usize) -> String {
    let species: String = (1..elements)
        .map(|i| format!("species s{i} -> v\n"))
        .collect();
    format!("model top\ncompartment v\n{species}")
}

/// Parameters four levels down, with flat names of 68 bytes that have 60 in common.
pub fn long_names(elements: usize) -> String {
    let submodels: String = (0..4)
        .map(|i| format!("model m{i}\nsubmodel submodel_one of m{}\n", i + 1))
        .collect();
    let parameters: String = (0..elements)
        .map(|i| format!("parameter name{i:08}\n"))
        .collect();
    format!("{submodels}model m4\n{parameters}")
}

/// Factors on four levels, and on the last so many leaves of 17 reactions: 60 of them make 1,020 entries beside 4
/// parameters.
pub fn four_levels(leaves: usize) -> String {
    let levels: String = (0..3)
        .map(|i| {
            let submodel = format!("submodel a of m{}\nfactors a time f extent f\n", i + 1);
            format!("model m{i}\nparameter f\n{submodel}")
        })
        .collect();
    let leaves: String = (0..leaves)
        .map(|i| format!("submodel a{i} of leaf\nfactors a{i} time f extent f\n"))
        .collect();
    let reactions = reactions(17);
    format!("{levels}model m3\nparameter f\n{leaves}model leaf\n{reactions}")
}

/// So many instances with main of 16 reactions each, without factors.
pub fn reactions_alone(instances: usize) -> String {
    let submodels: String = (1..instances)
        .map(|i| format!("submodel a{i} of leaf\n"))
        .collect();
    let reactions = reactions(16);
    format!("model top\n{reactions}{submodels}model leaf\n{reactions}")
}

fn reactions(count: usize) -> String {
    (0..count).map(|i| format!("reaction r{i}\n")).collect()
}

/// A definition with so many submodels, each given factors, and with some records more. Main doesn't use it, since a tree
/// has 63 submodels at most.
pub fn given_factors(submodels: usize, stem: &str, more: &str) -> String {
    let given: String = (0..submodels)
        .map(|i| format!("submodel {stem}{i:03} of top\nfactors {stem}{i:03}\n"))
        .collect();
    format!("model top\nmodel unused\n{given}{more}")
}
