//! Generates scripts, biased to moves that are taken, by looking at the state before each move.

use crate::random::Random;
use independent::running::State;
use independent::script::Move;
use independent::types::Type;

/// A script of so many moves from a start; a short one may end early where no thread can move.
pub fn script(random: &mut Random, mut state: State, length: usize) -> Vec<u8> {
    let mut out = Vec::new();
    for _ in 0..length {
        if state.threads.is_empty() && length < 500 && random.chance(30) {
            break;
        }
        let a_move = choose(random, &state);
        let _ = state.step(&a_move);
        a_move.write(&mut out);
    }
    out
}

/// The next move: mostly one that a thread allows, now and then any.
fn choose(random: &mut Random, state: &State) -> Move {
    match random.below(100) {
        0..=3 => any(random, state),
        4..=7 => near_miss(random, state).unwrap_or_else(|| any(random, state)),
        8..=13 => Move::EnvironmentName(wanted_type(random, state)),
        _ => (0..12).find_map(|_| allowed(random, state)).unwrap_or_else(|| otherwise(random, state)),
    }
}

/// A receive with a wrong name, or a sender and a receiver that may not share a channel.
fn near_miss(random: &mut Random, state: &State) -> Option<Move> {
    let receivers = partners(state, |j| state.threads[j].receiving().is_some());
    let senders = partners(state, |j| state.threads[j].sending().is_some());
    let receiver = pick(random, &receivers)?;
    match pick(random, &senders) {
        Some(sender) if random.chance(50) => Some(Move::Communicate(sender, receiver)),
        _ => Some(Move::Receive(receiver, random.below(state.types.len() + 1) as u16)),
    }
}

/// Where no allowed move was found: a name of the environment that may help, or any move.
fn otherwise(random: &mut Random, state: &State) -> Move {
    if random.chance(60) { Move::EnvironmentName(wanted_type(random, state)) } else { any(random, state) }
}

/// Any move, with thread and name numbers around those that exist.
pub fn any(random: &mut Random, state: &State) -> Move {
    let i = random.below(state.threads.len() + 2) as u8;
    let j = random.below(state.threads.len() + 2) as u8;
    match random.below(5) {
        0 => Move::Unfold(i),
        1 => Move::Send(i),
        2 => Move::Receive(i, random.below(state.types.len() + 2) as u16),
        3 => Move::Communicate(i, j),
        _ => Move::EnvironmentName(Type::new(&random.bytes(2).iter().map(|b| b % 64).collect::<Vec<_>>(), random.byte() % 16)),
    }
}

/// A type that some thread would receive, or one of a name given already.
fn wanted_type(random: &mut Random, state: &State) -> Type {
    let bound: Vec<Type> = state.threads.iter().filter_map(|t| t.receiving()).map(|(_, bound, _)| bound).collect();
    let mut types = if random.chance(60) { bound } else { state.types.clone() };
    if types.is_empty() {
        types.push(Type::new(&[], 0));
    }
    random.pick(&types)
}

/// A move of one thread chosen at random, if it has one that passes 30 to 34.
fn allowed(random: &mut Random, state: &State) -> Option<Move> {
    if state.threads.is_empty() {
        return None;
    }
    let i = random.below(state.threads.len());
    let thread = &state.threads[i];
    if let Some((channel, _, _)) = thread.sending() {
        let partners = partners(state, |j| state.threads[j].receiving().is_some_and(|(other, _, _)| other == channel));
        let with_environment = state.is_known(channel) && (partners.is_empty() || random.chance(40));
        return if with_environment { Some(Move::Send(i as u8)) } else { pick(random, &partners).map(|j| Move::Communicate(i as u8, j)) };
    }
    if let Some((channel, bound, _)) = thread.receiving() {
        let partners = partners(state, |j| state.threads[j].sending().is_some_and(|(other, _, _)| other == channel));
        let communicates = pick(random, &partners).map(|j| Move::Communicate(j, i as u8));
        let with_environment = receive(random, state, i, channel, bound);
        return if random.chance(50) { communicates.or(with_environment) } else { with_environment.or(communicates) };
    }
    let crowded = state.threads.len() > 40 && random.chance(80);
    if crowded { None } else { Some(Move::Unfold(i as u8)) }
}

fn partners(state: &State, fits: impl Fn(usize) -> bool) -> Vec<u8> {
    (0..state.threads.len()).filter(|&j| fits(j)).map(|j| j as u8).collect()
}

fn pick(random: &mut Random, threads: &[u8]) -> Option<u8> {
    if threads.is_empty() { None } else { Some(random.pick(threads)) }
}

fn receive(random: &mut Random, state: &State, i: usize, channel: u16, bound: Type) -> Option<Move> {
    let fits = |name: &u16| state.is_known(*name) && state.types[*name as usize] == bound;
    let names: Vec<u16> = (0..state.types.len() as u16).filter(fits).collect();
    if names.is_empty() || !state.is_known(channel) {
        return None;
    }
    random.pick_late(&names).map(|name| Move::Receive(i as u8, name))
}
