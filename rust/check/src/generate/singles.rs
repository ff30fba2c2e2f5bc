//! Single calls, with arguments by dice.

use super::Generator;
use super::arguments::PAGE_EDGES;
use super::taste::Kind;
use crate::call::Call;
use crate::compare::{FILES, ROOM};
use crate::model::Model;

impl Generator {
    pub(super) fn single(&mut self, kind: Kind, model: &Model) -> Call {
        match kind {
            Kind::Make => {
                let parent = self.parent(model);
                let group = self.new_group(model);
                Call::Make { user: self.writer(model, parent), parent, group }
            }
            Kind::Remove => {
                let childless = |&group: &u64| model.children(group).next().is_none();
                let is_held = |&group: &u64| model.holds(group).next().is_some();
                let leaves = model.live_groups().filter(|&group| group != 0).filter(childless);
                let (held, bare): (Vec<u64>, Vec<u64>) = leaves.partition(is_held);
                let group = match self.random.below(10) {
                    0..5 if !bare.is_empty() => self.random.pick(&bare),
                    5..7 if !held.is_empty() => self.random.pick(&held),
                    _ => self.group(model),
                };
                Call::Remove { user: self.writer_above(model, group), group }
            }
            Kind::HandOver => {
                let user = if self.random.percent(85) { 0 } else { self.user() };
                Call::HandOver { user, group: self.group(model), owner: self.user() }
            }
            Kind::WriteProcs => {
                let process = self.process(model);
                let group = self.group(model);
                let user = match self.random.below(10) {
                    0..4 => 0,
                    4..8 => model.process(process).map_or(0, |kept| kept.user),
                    _ => self.writer(model, group),
                };
                Call::WriteProcs { user, group, line: self.number_line(process) }
            }
            Kind::WriteSubtreeControl => {
                let group = self.group(model);
                let user = self.writer(model, group);
                Call::WriteSubtreeControl { user, group, line: self.control_line() }
            }
            Kind::WriteSetting => {
                let (group, file) = self.setting(model);
                let user = self.writer_above(model, group);
                let line = self.setting_line(model, group, &file);
                Call::WriteSetting { user, group, file, line }
            }
            Kind::Admit => Call::Admit { process: self.new_process(model), user: self.user() },
            Kind::Fork => {
                Call::Fork { parent: self.process(model), process: self.new_process(model) }
            }
            Kind::Exit => Call::Exit { process: self.process(model) },
            Kind::Collect => {
                let process = match self.random.one_of(model.zombies()) {
                    Some(zombie) if self.random.percent(85) => zombie,
                    _ => self.process(model),
                };
                Call::Collect { process }
            }
            Kind::Charge => {
                let process = self.process(model);
                Call::Charge { process, pages: self.pages(model, process) }
            }
            Kind::Release => {
                let with_pages = |&group: &u64| model.group(group).is_some_and(|g| g.own_pages > 0);
                let with_pages = self.random.one_of(model.live_groups().filter(with_pages));
                let group = match with_pages {
                    Some(group) if self.random.percent(80) => group,
                    _ => self.group(model),
                };
                let own = model.group(group).map_or(0, |kept| kept.own_pages);
                let pages = match self.random.below(10) {
                    0..2 => own,
                    2..4 => own + 1,
                    4 => self.random.pick(&PAGE_EDGES),
                    _ => self.random.within(1, own.clamp(1, 64)),
                };
                Call::Release { group, pages }
            }
            Kind::Read => {
                let group = self.group(model);
                let file = match self.random.below(20) {
                    0 => self.odd_file(),
                    1..6 => b"cgroup.procs".to_vec(),
                    _ => self.random.pick(&FILES).to_vec(),
                };
                let question = Call::Read { group, file, room: ROOM };
                self.with_room(model, question)
            }
            Kind::Membership => {
                let process = match self.random.one_of(model.zombies()) {
                    Some(zombie) if self.random.percent(40) => zombie,
                    _ => self.process(model),
                };
                let question = Call::Membership { process, room: ROOM };
                self.with_room(model, question)
            }
            Kind::FirstBadWord => {
                let line = self.control_line();
                let times = self.random.pick(&[1, 1, 1, 1, 1, 1, 40]);
                Call::FirstBadWord { line: line.repeat(times) }
            }
        }
    }
}
