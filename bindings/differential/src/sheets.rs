//! Generates sheets, mostly well-typed: repeats, new names, links received and sent on, components in nested groups or on given paths,
//! with few purposes.

use crate::random::Random;
use crate::{purposes, sharers};
use independent::types::Type;

/// How a sheet is to look.
pub struct Plan {
    pub components: usize,
    pub acts: usize,
    pub fault_percent: usize,
    /// Whether the components get paths whose groups are often the same.
    pub sharing: bool,
}

/// A plan: mostly small and faultless, now and then large.
pub fn plan(random: &mut Random) -> Plan {
    let (large, sharing) = (random.chance(5), random.chance(45));
    let fault_percent = if random.chance(15) { random.between(1, 8) } else { 0 };
    Plan {
        components: if large { random.between(8, 32) } else { random.between(1 + sharing as usize, 5) },
        acts: if large { random.between(20, 120) } else { random.between(1, 12) },
        fault_percent,
        sharing,
    }
}

struct Maker<'r> {
    random: &'r mut Random,
    plan: Plan,
    out: Vec<u8>,
    groups: Vec<u8>,
    kinds: Vec<u8>,
    purposes: Vec<u8>,
    scope: Vec<Type>,
    free: usize,
    path: Vec<u8>,
}

/// The bytes of a sheet.
pub fn sheet(random: &mut Random, plan: Plan) -> Vec<u8> {
    let mut all: Vec<u8> = (0..64).collect();
    random.shuffle(&mut all);
    let groups = all[..random.between(2, 7)].to_vec();
    let kinds = (0..random.between(1, 3)).map(|_| random.below(16) as u8).collect();
    let purposes = purposes::choice(random);
    let mut maker = Maker { random, plan, out: Vec::new(), groups, kinds, purposes, scope: Vec::new(), free: 0, path: Vec::new() };
    maker.free_names();
    maker.top();
    maker.out
}

impl Maker<'_> {
    /// Free names, many of them together with a name of the type they carry.
    fn free_names(&mut self) {
        let wanted = if self.random.chance(3) { 31 } else { self.random.between(1, 6) };
        while self.scope.len() < wanted {
            let made = self.a_type();
            self.scope.push(made);
            let carried = made.carried().filter(|_| self.random.chance(70));
            self.scope.extend(carried);
        }
        self.scope.truncate(32);
        self.free = self.scope.len();
        self.out.push(self.scope.len() as u8);
        for made in &self.scope {
            made.write(&mut self.out);
        }
    }

    /// A type over the sheet's groups and kinds; its outermost group is mostly one of the path.
    fn a_type(&mut self) -> Type {
        let depth = self.random.pick(&[0, 0, 1, 1, 1, 2, 2, 2, 2, 3, 4]);
        let mut groups: Vec<u8> = (0..depth).map(|_| self.random.pick(&self.groups)).collect();
        if depth > 0 && self.random.chance(50) {
            groups[0] = if self.path.is_empty() { self.groups[0] } else { self.random.pick(&self.path) };
        }
        Type::new(&groups, self.random.pick(&self.kinds))
    }

    /// The system, mostly inside one group that all components share.
    fn top(&mut self) {
        let components = self.plan.components;
        if self.plan.sharing {
            let paths = sharers::paths(self.random, &self.groups, components);
            self.along(&paths, 1);
        } else if self.random.chance(85) {
            let root = self.groups[0];
            self.in_group(2, root, |maker| maker.system(components, 2));
        } else {
            self.system(components, 1);
        }
    }

    fn in_group(&mut self, code: u8, group: u8, inner: impl FnOnce(&mut Self)) {
        self.out.extend_from_slice(&[code, group]);
        self.path.push(group);
        inner(self);
        self.path.pop();
    }

    /// A group that is new to the path.
    fn new_group(&mut self) -> u8 {
        let unused: Vec<u8> = self.groups.iter().copied().filter(|g| !self.path.contains(g)).collect();
        let others: Vec<u8> = (0..64).filter(|g| !self.path.contains(g)).collect();
        if self.faulty() {
            let any = self.random.below(64) as u8;
            return self.random.pick_late(&self.path).filter(|_| self.random.chance(50)).unwrap_or(any);
        }
        if unused.is_empty() || self.random.chance(5) { self.random.pick(&others) } else { self.random.pick(&unused) }
    }

    fn faulty(&mut self) -> bool {
        self.plan.fault_percent > 0 && self.random.chance(self.plan.fault_percent)
    }

    /// A system with so many components.
    fn system(&mut self, components: usize, level: usize) {
        let choice = self.random.below(100);
        if components == 0 {
            self.out.push(0);
        } else if choice < 12 && self.path.len() < 6 && level < 30 {
            let group = self.new_group();
            self.in_group(2, group, |maker| maker.system(components, level + 1));
        } else if choice < 28 && self.scope.len() < 60 && level < 30 {
            self.new_name(|maker| maker.system(components, level + 1));
        } else if components > 1 || choice > 95 {
            let left = self.random.between(components / 2, components.div_ceil(2));
            self.out.push(1);
            self.system(left, level + 1);
            self.system(components - left, level + 1);
        } else {
            let group = self.new_group();
            self.component(group, level);
        }
    }

    /// A component with a purpose of the sheet's, or, where a fault is wanted, with a byte that is none.
    fn component(&mut self, group: u8, level: usize) {
        let purpose = if self.faulty() { purposes::beyond(self.random) } else { self.random.pick(&self.purposes) };
        let acts = self.random.between(0, self.plan.acts);
        self.in_group(4, group, |maker| {
            maker.out.push(purpose);
            maker.process(acts, level + 1)
        });
    }

    /// Components on these paths; groups that all of them begin with are written once or for each.
    fn along(&mut self, paths: &[Vec<u8>], level: usize) {
        let group = paths[0][0];
        let together = paths.iter().all(|path| path[0] == group && path.len() > 1);
        if self.scope.len() < 60 && level < 20 && self.random.chance(15) {
            self.new_name(|maker| maker.along(paths, level + 1));
        } else if together && (paths.len() == 1 || self.random.chance(50)) {
            let rest: Vec<Vec<u8>> = paths.iter().map(|path| path[1..].to_vec()).collect();
            self.in_group(2, group, |maker| maker.along(&rest, level + 1));
        } else if paths.len() > 1 {
            let (left, right) = paths.split_at(paths.len() / 2);
            self.out.push(1);
            self.along(left, level + 1);
            self.along(right, level + 1);
        } else {
            self.component(group, level);
        }
    }

    /// A new name, often of a type that some channel in scope carries.
    fn new_name(&mut self, inner: impl FnOnce(&mut Self)) {
        let carried: Vec<Type> = self.scope.iter().filter_map(Type::carried).collect();
        let made = match self.random.pick_late(&carried) {
            Some(carried) if self.random.chance(60) => carried,
            _ => self.a_type(),
        };
        self.out.push(3);
        self.bind(made, inner);
    }

    /// Writes a bound type and what stands in its scope.
    fn bind(&mut self, bound: Type, inner: impl FnOnce(&mut Self)) {
        bound.write(&mut self.out);
        self.scope.push(bound);
        inner(self);
        self.scope.pop();
    }

    /// A process with about so many acts.
    fn process(&mut self, acts: usize, level: usize) {
        let too_big = level > 60 || self.scope.len() > 62 || self.out.len() > 3900;
        if acts == 0 || too_big {
            self.out.push(0);
            return;
        }
        match self.random.below(100) {
            0..=19 => self.parallel(acts, level),
            20..=27 => self.new_name(|maker| maker.process(acts - 1, level + 1)),
            28..=35 if !self.plan.sharing || self.random.chance(15) => self.repeat(acts, level),
            36..=66 => self.receive(acts, level),
            _ => self.send(acts, level),
        }
    }

    fn parallel(&mut self, acts: usize, level: usize) {
        let left = self.random.between(0, acts);
        self.out.push(1);
        self.process(left, level + 1);
        self.process(acts - left, level + 1);
    }

    fn repeat(&mut self, acts: usize, level: usize) {
        self.out.push(7);
        self.process(acts, level + 1);
    }

    /// The binder numbers of channels that the component may use; where a fault is wanted, of all channels.
    fn channels(&mut self) -> Vec<usize> {
        let fault = self.faulty();
        let usable = |made: &Type| made.outermost().is_some_and(|group| fault || self.path.contains(&group));
        (0..self.scope.len()).filter(|&i| usable(&self.scope[i])).collect()
    }

    fn receive(&mut self, acts: usize, level: usize) {
        let channels = self.channels();
        let Some(channel) = self.random.pick_late(&channels) else { return self.new_name(|maker| maker.process(acts - 1, level + 1)) };
        let mut bound = self.scope[channel].carried().expect("a channel");
        if self.faulty() {
            bound = self.a_type();
        }
        let number = if self.faulty() { self.random.below(70) as u8 } else { channel as u8 };
        self.out.extend_from_slice(&[5, number]);
        self.bind(bound, |maker| maker.process(acts - 1, level + 1));
    }

    fn send(&mut self, acts: usize, level: usize) {
        let mut pairs = Vec::new();
        for channel in self.channels() {
            let carried = self.scope[channel].carried();
            pairs.extend((0..self.scope.len()).filter(|&i| Some(self.scope[i]) == carried).map(|i| (channel, i)));
        }
        let links = pairs.iter().copied().filter(|&(channel, _)| self.scope[channel].groups().len() == 2).collect();
        let made = pairs.iter().copied().filter(|&(channel, name)| name >= self.free && channel < self.free).collect();
        let choices: [Vec<_>; 2] = [links, made];
        let preferred = &choices[self.random.below(2)];
        let chosen = if self.random.chance(70) && !preferred.is_empty() { preferred } else { &pairs };
        let Some((channel, name)) = self.random.pick_late(chosen) else { return self.receive(acts, level) };
        let mut act = [6, channel as u8, name as u8];
        if self.faulty() {
            let beyond = self.random.chance(20) as usize;
            act[self.random.between(1, 2)] = self.random.below(self.scope.len() + beyond) as u8;
        }
        self.out.extend_from_slice(&act);
        self.process(acts - 1, level + 1);
    }
}
