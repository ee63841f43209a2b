//! A random walk from reset: every configuration on it is reachable.

use crate::events::{accepted, any, candidates, choose, Weights};
use crate::random::Random;
use referee::configuration::Configuration;
use referee::event::Event;
use referee::tree::Tree;

pub struct Walk {
    pub configuration: Configuration,
    pub candidates: Vec<Event>,
    /// Each walk prefers other kinds, so that messages overtake each other in every way.
    weights: Weights,
    accepted_percent: usize,
}

impl Walk {
    pub fn new(random: &mut Random, tree: Tree, first_value: u64) -> Walk {
        Walk {
            configuration: Configuration::reset(tree, first_value),
            candidates: candidates(&tree),
            weights: std::array::from_fn(|_| random.pick(&[1, 2, 8, 32])),
            accepted_percent: random.pick(&[60, 80, 95]),
        }
    }

    /// The next event: mostly an accepted one.
    pub fn next_event(&self, random: &mut Random) -> Event {
        let chosen = if random.percent(self.accepted_percent) {
            let events = accepted(&self.configuration, &self.candidates);
            choose(random, &events, &self.weights)
        } else {
            None
        };
        chosen.unwrap_or_else(|| any(random, &self.configuration.tree))
    }

    /// Takes the event, where it is accepted.
    pub fn take(&mut self, event: &Event) {
        if let Ok(step) = self.configuration.step(event) {
            self.configuration = step.configuration;
        }
    }
}
