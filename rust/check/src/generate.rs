//! Lists of calls from a seed, with a liking for edges. A list is single calls whose arguments are
//! picked from what is live, or from the edges of ranges, and short scenes that bring the tree to
//! where the rules bite. Each seed has tastes of its own (how many users, how deep, how wild), so
//! that seeds differ more than calls of one seed do. Some scenes come by dice; others in turn, each
//! seed going on about where the one before it left off, so that a run of seeds leaves none out. A
//! tenth of the seeds are heavy in zombies.

use std::collections::VecDeque;

use crate::call::Call;
use crate::model::Model;
use crate::random::Random;

mod arguments;
mod devices;
mod lines;
mod scenes;
mod singles;
mod taste;

use taste::{Kind, Taste};

/// How many scenes a list of a few hundred calls takes from those that come in turn.
const TURNS: u64 = 5;

pub struct Generator {
    random: Random,
    taste: Taste,
    plan: VecDeque<Call>,
    /// How many scenes have come in turn, those of the seeds before taken as `TURNS` each.
    turn: u64,
    /// The seed, until the list has begun.
    fresh: Option<u64>,
}

impl Generator {
    pub fn new(seed: u64) -> Generator {
        let mut random = Random::new(seed);
        let taste = Taste::of(&mut random, scenes::has_many_zombies(seed));
        let turn = seed % (1 << 32) * TURNS;
        Generator { random, taste, plan: VecDeque::new(), turn, fresh: Some(seed) }
    }

    /// The machine size of this seed's tree.
    pub fn machine(&self) -> u64 {
        self.taste.machine
    }

    /// The length of this seed's list, where others have so many calls: longer by a full house.
    pub fn length(&self, calls: usize) -> usize {
        let is_long = self.fresh.is_some_and(scenes::has_full_house);
        if is_long { calls + scenes::FULL_HOUSE } else { calls }
    }

    /// A kind of call, by its weight.
    fn kind(&mut self) -> Kind {
        let weights = &self.taste.weights;
        let mut at = self.random.below(weights.iter().map(|(_, weight)| weight).sum());
        let reached = weights.iter().find(|(_, weight)| {
            let is_within = at < *weight;
            at = at.saturating_sub(*weight);
            is_within
        });
        reached.expect("below the sum of the weights").0
    }

    /// The call to make after those that led to the model.
    pub fn next(&mut self, model: &Model) -> Call {
        if let Some(seed) = self.fresh.take() {
            self.opening(seed, model);
        } else if self.plan.is_empty() && self.random.percent(self.taste.scenes) {
            self.scene(model);
        }
        if self.random.percent(self.taste.steady)
            && let Some(call) = self.plan.pop_front()
        {
            return call;
        }
        let kind = self.kind();
        self.single(kind, model)
    }
}
