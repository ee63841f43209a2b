//! The shape of a rule: the needs of a row of the event table, and what it does.

use super::scene::{Act, Scene};
use crate::codes::Purpose;
use crate::configuration::Configuration;

pub struct Rule {
    /// What the row needs for every purpose that it has, in its order.
    pub needs: &'static [Need],
    /// What it needs further, by the purpose of the node's main transaction.
    pub by_purpose: ByPurpose,
    pub effect: fn(&mut Configuration, &Act),
}

/// One need, in the row's words.
pub struct Need {
    pub words: &'static str,
    pub holds: fn(&Scene) -> bool,
}

pub const fn need(words: &'static str, holds: fn(&Scene) -> bool) -> Need {
    Need { words, holds }
}

/// The further needs for each purpose.
pub struct ByPurpose {
    pub none: Further,
    pub load: Further,
    pub store: Further,
    pub evict: Further,
}

/// Nothing for a purpose that the row doesn't name: its needs never hold then.
pub type Further = Option<&'static [Need]>;

/// For a row that names no purpose and so asks the same of all.
pub const ANY_PURPOSE: ByPurpose = ByPurpose {
    none: Some(&[]),
    load: Some(&[]),
    store: Some(&[]),
    evict: Some(&[]),
};

/// For a row that names load and store.
pub const fn load_or_store(load: &'static [Need], store: &'static [Need]) -> ByPurpose {
    ByPurpose {
        none: None,
        load: Some(load),
        store: Some(store),
        evict: None,
    }
}

/// What is missing for a purpose that the row doesn't name.
const PURPOSE: &str = "a purpose that its row names";

impl ByPurpose {
    fn of(&self, purpose: Option<Purpose>) -> Further {
        match purpose {
            None => self.none,
            Some(Purpose::Load) => self.load,
            Some(Purpose::Store) => self.store,
            Some(Purpose::Evict) => self.evict,
        }
    }
}

impl Rule {
    /// The words of the first need that doesn't hold; nothing where all hold.
    pub fn missing(&self, scene: &Scene) -> Option<&'static str> {
        let further = self.by_purpose.of(scene.purpose());
        let needs = self.needs.iter().chain(further.unwrap_or_default());
        let unnamed = further.is_none().then_some(PURPOSE);
        let mut failing = needs.filter(|need| !(need.holds)(scene));
        failing.next().map(|need| need.words).or(unnamed)
    }

    /// Every need in the row's order, and whether it is one for this purpose.
    pub fn listed(
        &'static self,
        purpose: Option<Purpose>,
    ) -> impl Iterator<Item = (&'static Need, bool)> {
        let further = Purpose::or_none().flat_map(move |each| {
            let needs = self.by_purpose.of(each).unwrap_or_default();
            needs.iter().map(move |need| (need, each == purpose))
        });
        self.needs.iter().map(|need| (need, true)).chain(further)
    }
}
