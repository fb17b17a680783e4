//! Whether the archive exports what the header declares, and nothing that this program does not compare.

use crate::call::Group;
use std::collections::BTreeSet;

mod names {
    include!(concat!(env!("OUT_DIR"), "/names.rs"));
}

pub fn run(group: &mut Group) {
    let every: BTreeSet<&str> = [names::EXPORTED, names::DECLARED, names::KNOWN].concat().into_iter().collect();
    for name in every {
        let exported = names::EXPORTED.contains(&name);
        let declared = names::DECLARED.contains(&name);
        let known = names::KNOWN.contains(&name);
        if known && !exported && !declared {
            println!("{name}: not in the library yet");
            continue;
        }
        group.check(exported == declared && known, || {
            format!("{name}: in the archive {exported}, in the header {declared}, compared here {known}")
        });
    }
}
