//! Calls at the dispatchers above the cabinets, and what a host does with one.

use super::turns::{Account, Unfair};
use super::World;
use crate::answer::Answer;
use crate::bytes::get_u32;
use crate::faults::{Fault, FaultyDispatcher};
use crate::packet::REQUEST;
use crate::schedule::{Fate, Flaw, Party, Which};

/// A server's dispatcher, its account, and the copy that the host put aside last.
pub(super) struct Queue {
    dispatcher: FaultyDispatcher,
    account: Account,
    copy: (FaultyDispatcher, Account),
}

impl Queue {
    pub(super) fn new(fault: Option<Fault>) -> Queue {
        let empty = (FaultyDispatcher::new(fault), Account::default());
        Queue {
            dispatcher: empty.0.clone(),
            account: empty.1.clone(),
            copy: empty,
        }
    }

    pub(super) fn waiting(&self) -> u64 {
        self.account.waiting()
    }
}

impl World<'_> {
    /// The server itself is not called: it may be down, or storing a checkpoint.
    pub(super) fn enqueue(&mut self, at: Party, packet: Which) {
        let Some(number) = self.pick(packet, &[REQUEST]) else {
            return;
        };
        let cabinet = self.party(at, self.apt_for(number));
        self.last = cabinet;
        let packet = &self.pool[number];
        let queue = &mut self.cabinets[cabinet].queue;
        let before = self.options.verify.then(|| queue.dispatcher.clone());
        let answer = Answer::of(queue.dispatcher.enqueue(packet));
        let unfair = queue.account.enqueued(packet, answer.number);
        let kept = answer.number == 0 || before.is_none_or(|d| d == queue.dispatcher);
        assert!(kept, "a refusal leaves a dispatcher");
        self.unfair(unfair);
        self.count(answer);
        let turns = &mut self.counts.turns;
        match answer.number {
            0 => turns.enqueued += 1,
            1 => turns.malformed += 1,
            8 => turns.full += 1,
            _ => turns.already_waiting += 1,
        }
        self.note(|| {
            let number = number + 1;
            format!(
                "enqueue packet {number} at cabinet {cabinet} -> {}",
                answer.number
            )
        });
    }

    /// No call where the server is down or stores a checkpoint. The account is told what
    /// was handed over.
    pub(super) fn serve(&mut self, at: Party, flaw: Flaw) {
        let Some(cabinet) = self.running(at, self.last) else {
            self.counts.turns.not_called += 1;
            return;
        };
        let idle = FaultyDispatcher::new(None);
        let queue = &mut self.cabinets[cabinet].queue;
        let mut dispatcher = std::mem::replace(&mut queue.dispatcher, idle);
        let (mut handed, mut made) = (None, 0);
        let answer = dispatcher.serve_by(|packet| {
            handed = Some(packet.to_vec());
            let (answer, packet) = self.request_at(cabinet, packet, flaw);
            made = packet;
            answer
        });
        let queue = &mut self.cabinets[cabinet].queue;
        queue.dispatcher = dispatcher;
        let (waited, unfair) = queue.account.served(handed.as_deref());
        unfair.into_iter().for_each(|how| self.unfair(Some(how)));
        if handed.is_none() {
            self.count(answer);
        }
        self.count_serving(answer, flaw, waited);
        self.note(|| {
            let id = handed.map(|packet| (get_u32(&packet, 4), get_u32(&packet, 8)));
            format!(
                "serve cabinet {cabinet}, {id:?} -> {} {made}",
                answer.number
            )
        });
    }

    fn count(&mut self, answer: Answer) {
        self.counts.steps += 1;
        self.counts.refusals[answer.number as usize] += 1;
    }

    fn count_serving(&mut self, answer: Answer, flaw: Flaw, waited: Option<u32>) {
        let turns = &mut self.counts.turns;
        match answer.number {
            17 if flaw == Flaw::None => turns.nobody += 1,
            17 => turns.nobody_short += 1,
            2 | 19 => turns.short += 1,
            0 => turns.answered += 1,
            _ => turns.refused += 1,
        }
        if let Some(waited) = waited {
            turns.served += 1;
            turns.waits_over_8 += u64::from(waited > 8);
            turns.longest = turns.longest.max(u64::from(waited));
        }
    }

    fn unfair(&mut self, how: Option<Unfair>) {
        if let Some(how) = how {
            self.counts.turns.unfair[how as usize] += 1;
            self.first_unfair.get_or_insert((self.place, how));
        }
    }

    pub(super) fn handle_waiting(&mut self, at: Party, fate: Fate) {
        let cabinet = self.party(at, self.last);
        let fault = self.options.fault;
        let queue = &mut self.cabinets[cabinet].queue;
        let (waited, aside) = (queue.waiting(), queue.copy.1.waiting());
        let turns = &mut self.counts.turns;
        match fate {
            Fate::Lost => {
                queue.dispatcher = FaultyDispatcher::new(fault);
                queue.account = Account::default();
                turns.lost += waited;
            }
            Fate::Copied => queue.copy = (queue.dispatcher.clone(), queue.account.clone()),
            Fate::OldCopy => {
                (queue.dispatcher, queue.account) = queue.copy.clone();
                turns.from_copy += aside;
            }
        }
        self.note(|| format!("dispatcher of cabinet {cabinet}: {fate:?}"));
    }
}
