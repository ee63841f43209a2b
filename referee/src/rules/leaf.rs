//! Kinds 1 to 4: loads, stores and their misses at a leaf.

use super::rule::{need, Need, Rule, ANY_PURPOSE};
use crate::codes::{Phase, Purpose};
use crate::configuration::Configuration;
use crate::node::Name;

/// All three transactions idle. A leaf's release is always idle: it has no child to acknowledge.
const MAIN_IDLE: Need = need("main idle", |s| s.phase() == Phase::Idle);
const OTHERS_IDLE: Need = need("probe and release idle", |s| {
    s.probe_idle() && s.release_idle()
});

/// leaf B or TT, all three transactions idle | answers the value
pub const LOAD: Rule = Rule {
    needs: &[
        need("leaf B or TT", |s| match s.name() {
            Name::B | Name::TT => true,
            Name::N | Name::TB | Name::T => false,
        }),
        MAIN_IDLE,
        OTHERS_IDLE,
    ],
    by_purpose: ANY_PURPOSE,
    effect: |_, _| {},
};

/// leaf TT, all idle | sets value, dirty
pub const STORE: Rule = Rule {
    needs: &[
        need("leaf TT", |s| s.name() == Name::TT),
        MAIN_IDLE,
        OTHERS_IDLE,
    ],
    by_purpose: ANY_PURPOSE,
    effect: |configuration, act| {
        let node = &mut configuration.nodes[act.node];
        node.value = act.value;
        node.dirty = true;
    },
};

/// leaf N, all idle | Ask, load
pub const LOAD_MISS: Rule = Rule {
    needs: &[
        need("leaf N", |s| s.name() == Name::N),
        MAIN_IDLE,
        OTHERS_IDLE,
    ],
    by_purpose: ANY_PURPOSE,
    effect: |configuration, act| ask(configuration, act.node, Purpose::Load),
};

/// leaf N or B, all idle | Ask, store
pub const STORE_MISS: Rule = Rule {
    needs: &[
        need("leaf N or B", |s| match s.name() {
            Name::N | Name::B => true,
            Name::TT | Name::TB | Name::T => false,
        }),
        MAIN_IDLE,
        OTHERS_IDLE,
    ],
    by_purpose: ANY_PURPOSE,
    effect: |configuration, act| ask(configuration, act.node, Purpose::Store),
};

fn ask(configuration: &mut Configuration, node: usize, purpose: Purpose) {
    let node = &mut configuration.nodes[node];
    node.phase = Phase::Ask;
    node.purpose = Some(purpose);
}
