//! Demand 3 looked at in a run: after each move the state is typed, no component infers beyond the start, no next act is an error, and
//! links disclosed plus those still inferred, of all components that share a count, stay within the charter. A component's grant is that of
//! its path for its purpose.

use crate::cover;
use crate::permissions::{ByKind, Count, Need, Permissions};
use crate::running::{Label, State, Taken, Thread};
use crate::sharing;
use crate::sheet::Component;
use crate::types::Type;
use crate::typing;
use crate::Judged;

/// What demand 3 has to remember over a run.
pub struct Watch<'a> {
    components: &'a [Component],
    classes: Vec<usize>,
    inferred: Vec<ByKind>,
    grants: Vec<Vec<Permissions>>,
    /// The links that each component has disclosed.
    disclosed: Vec<ByKind>,
}

impl<'a> Watch<'a> {
    /// A watch over the runs of an accepted sheet.
    pub fn new(accepted: &'a Judged) -> Watch<'a> {
        let components = &accepted.sheet.components;
        let mut inferred = vec![ByKind::new(); components.len()];
        for entry in &accepted.interface {
            inferred[entry.component].insert(entry.kind, entry.permissions.clone());
        }
        let grant = |component: &Component| (0..16).map(|kind| cover::grant(&accepted.charter, component, kind)).collect();
        let (grants, disclosed) = (components.iter().map(grant).collect(), vec![ByKind::new(); components.len()]);
        Watch { components, classes: sharing::classes(components), inferred, grants, disclosed }
    }

    /// Notes the link that a taken move discloses, if it does.
    pub fn note(&mut self, state: &State, taken: &Taken) {
        let sends = matches!(taken.label, Label::Communication | Label::Out | Label::OutNew);
        let (true, Some(channel), Some(component)) = (sends, taken.channel, taken.component) else { return };
        if let Some((kind, Need::Disclose(group))) = typing::need(false, state.types[channel as usize]) {
            self.disclosed[component].entry(kind).or_default().add_disclose(group, Count::Finite(1));
        }
    }

    /// Looks at a state; the error says what does not hold.
    pub fn look(&self, state: &State) -> Result<(), String> {
        let mut now = vec![ByKind::new(); self.components.len()];
        for (number, thread) in state.threads.iter().enumerate() {
            self.look_at_thread(thread, state, &mut now[thread.component])
                .map_err(|what| format!("thread {number}: {what}"))?;
        }
        for (component, needs) in now.iter().enumerate() {
            self.not_beyond_the_start(component, needs).map_err(|what| format!("component {component}: {what}"))?;
        }
        self.look_at_limits(&now)
    }

    fn look_at_thread(&self, thread: &Thread, state: &State, needs: &mut ByKind) -> Result<(), String> {
        let mut scope: Vec<Type> = thread.names.iter().map(|&name| state.types[name as usize]).collect();
        typing::check_process(thread.process, &mut scope, &self.components[thread.component].path)
            .map_err(|number| format!("its remaining process fails {number}"))?;
        if let Some((kind, need)) = thread.process.act().and_then(|act| typing::act_need(act, &scope)) {
            if !self.grants[thread.component][kind as usize].grants(need) {
                return Err(format!("its next act needs {need:?} of kind {kind}, which its grant lacks"));
            }
        }
        typing::infer(thread.process, &mut scope, false, needs);
        Ok(())
    }

    fn not_beyond_the_start(&self, component: usize, needs: &ByKind) -> Result<(), String> {
        let nothing = Permissions::default();
        for (kind, permissions) in needs {
            if !permissions.within(self.inferred[component].get(kind).unwrap_or(&nothing)) {
                return Err(format!("infers of kind {kind} beyond the start"));
            }
        }
        Ok(())
    }

    /// Links disclosed plus links still inferred: of each class, and, which follows, of each component by itself.
    fn look_at_limits(&self, now: &[ByKind]) -> Result<(), String> {
        let by_itself: Vec<usize> = (0..self.components.len()).collect();
        for (what, classes) in [("component", &by_itself), ("class of component", &self.classes)] {
            let links = each(&self.disclosed).chain(each(now));
            for (number, links) in sharing::sums(classes, links).iter().enumerate() {
                self.within_charter(number, links).map_err(|told| format!("{what} {number}: {told}"))?;
            }
        }
        Ok(())
    }

    /// Links held against the charter's counts for a component's path and purpose.
    fn within_charter(&self, component: usize, links: &ByKind) -> Result<(), String> {
        for (&kind, permissions) in links {
            for (&group, &count) in &permissions.disclose {
                let granted = self.grants[component][kind as usize].count(group);
                if count > granted {
                    return Err(format!("kind {kind}, group {group}: disclosed and still inferred {count:?}, granted {granted:?}"));
                }
            }
        }
        Ok(())
    }
}

/// Component, kind and permissions of each that components have.
fn each(components: &[ByKind]) -> impl Iterator<Item = (usize, u8, &Permissions)> {
    let numbered = components.iter().enumerate();
    numbered.flat_map(|(component, kinds)| kinds.iter().map(move |(&kind, permissions)| (component, kind, permissions)))
}
