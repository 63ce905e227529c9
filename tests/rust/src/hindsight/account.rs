//! What was offered to a round and what it sent, from its calls and their
//! replies alone.

use crate::call::Call;
use crate::counts::{Slot, Ticket, Weight};
use crate::hindsight::gain::Claim;
use crate::hindsight::script::Asked;

/// A frame as accepted: it could go from the slot of its taking to its first
/// due slot, for its first weight.
#[derive(Clone, Copy, PartialEq, Eq, Debug)]
pub struct Offer {
    pub from: Slot,
    pub to: Slot,
    pub weight: Weight,
}

/// A frame that went out: its slot, and its place among the offers.
#[derive(Clone, Copy, PartialEq, Eq, Debug)]
pub struct Sent {
    pub slot: Slot,
    pub place: usize,
}

#[derive(Clone, PartialEq, Eq, Debug)]
pub struct Account {
    last: Slot,
    /// The current slot: the accepted sendings so far.
    slot: Slot,
    /// What the accepted takings were answered with.
    tickets: Vec<Ticket>,
    /// Whether a sealing was accepted.
    pub sealed: bool,
    /// What they offered.
    pub offers: Vec<Offer>,
    pub sent: Vec<Sent>,
}

impl Account {
    /// Of the round that the last accepted opening began.
    pub fn of(asked: &[Asked]) -> Result<Account, String> {
        let mut account = None;
        for one in asked.iter().filter(|one| one.is_accepted()) {
            match (one.call, &mut account) {
                (Call::Open { last }, _) => account = Some(Account::opened(Slot(last))),
                (_, Some(account)) => account.add(*one)?,
                _ => return Err("a call was accepted before any opening".to_string()),
            }
        }
        account.ok_or("no opening was accepted".to_string())
    }

    fn opened(last: Slot) -> Account {
        Account {
            last,
            slot: Slot(0),
            tickets: Vec::new(),
            sealed: false,
            offers: Vec::new(),
            sent: Vec::new(),
        }
    }

    fn add(&mut self, asked: Asked) -> Result<(), String> {
        let ticket = Ticket((asked.reply >> 8 & 0xFF_FFFF) as u32);
        match asked.call {
            Call::Take { due, weight } | Call::TakeClass { due, weight, .. } => {
                self.tickets.push(ticket);
                self.offers.push(Offer {
                    from: self.slot,
                    to: Slot(due),
                    weight: Weight(weight),
                });
            }
            Call::Send => {
                if is_frame(asked.reply) {
                    self.frame(ticket)?;
                }
                self.slot = Slot(self.slot.0 + 1);
            }
            Call::Seal => self.sealed = true,
            _ => (),
        }
        Ok(())
    }

    /// A frame went out in the current slot.
    fn frame(&mut self, ticket: Ticket) -> Result<(), String> {
        let place = self.tickets.iter().position(|own| *own == ticket);
        let place = place.ok_or(format!("no taking was answered with ticket {}", ticket.0))?;
        self.sent.push(Sent {
            slot: self.slot,
            place,
        });
        Ok(())
    }

    /// S: the first weights of the frames sent.
    pub fn sum(&self) -> u64 {
        let weight = |sent: &Sent| u64::from(self.offers[sent.place].weight.0);
        self.sent.iter().map(weight).sum()
    }

    /// Whether the current slot is past the last.
    pub fn is_over(&self) -> bool {
        self.slot > self.last
    }

    /// What is claimed of the round: the golden bound only where no sealing
    /// was accepted.
    pub fn claims(&self) -> &'static [Claim] {
        match self.sealed {
            true => &[Claim::Possible],
            false => &[Claim::Possible, Claim::Golden],
        }
    }

    /// Whether each frame went out once, between its taking and its first due
    /// slot.
    pub fn is_in_time(&self) -> bool {
        let mut places: Vec<usize> = self.sent.iter().map(|sent| sent.place).collect();
        places.sort_unstable();
        places.dedup();
        let in_time = |sent: &Sent| {
            let offer = self.offers[sent.place];
            offer.from <= sent.slot && sent.slot <= offer.to
        };
        places.len() == self.sent.len() && self.sent.iter().all(in_time)
    }
}

/// Whether the reply to a sending says that a frame went out, and neither
/// silence nor a kept blank.
fn is_frame(reply: u64) -> bool {
    reply >> 32 & 3 == 1
}

#[cfg(test)]
mod tests {
    use super::*;
    use crate::call::Call::{Open, Seal, Send, Take};

    const FRAME: u64 = 1 << 32;
    const BLANK: u64 = 2 << 32;

    fn account(asked: &[(Call, u64)]) -> Account {
        let asked = asked.iter().map(|&(call, reply)| Asked { call, reply });
        Account::of(&asked.collect::<Vec<_>>()).expect("an account")
    }

    fn take(due: u32, weight: u32) -> Call {
        Take { due, weight }
    }

    #[test]
    fn counts_frames_alone() {
        let own = account(&[
            (Open { last: 2 }, 0),
            (take(0, 4), 1 << 8),
            (take(1, 11), 2 << 8),
            (Send, FRAME | 2 << 8),
            (Send, BLANK | 2 << 8),
            (Send, 0),
        ]);
        assert_eq!(own.sum(), 11);
        assert!(own.is_over());
        assert!(own.is_in_time());
    }

    #[test]
    fn leaves_out_what_was_refused() {
        let own = account(&[
            (take(0, 9), 3),
            (Open { last: 1 }, 0),
            (take(0, 0), 6),
            (take(1, 5), 1 << 8),
            (Open { last: 4_096 }, 4),
            (Send, FRAME | 1 << 8),
            (take(0, 7), 7),
            (take(1, 8), 2 << 8),
            (Send, FRAME | 2 << 8),
            (Send, 5),
        ]);
        let offers = own.offers.iter();
        let shown: Vec<_> = offers.map(|o| (o.from.0, o.to.0, o.weight.0)).collect();
        assert_eq!(shown, [(0, 1, 5), (1, 1, 8)]);
        assert_eq!(own.sum(), 13);
    }

    #[test]
    fn begins_anew_with_an_opening() {
        let own = account(&[
            (Open { last: 0 }, 0),
            (take(0, 9), 1 << 8),
            (Open { last: 0 }, 0),
            (take(0, 2), 1 << 8),
            (Send, FRAME | 1 << 8),
        ]);
        assert_eq!((own.sum(), own.offers.len()), (2, 1));
    }

    /// The bound is about rounds without an accepted sealing: a refused one
    /// does not count, nor one of the round before.
    #[test]
    fn claims_the_bound_of_unsealed_rounds_alone() {
        let both = [Claim::Possible, Claim::Golden];
        let opened = (Open { last: 0 }, 0);
        let sealed = account(&[opened, (Seal, 0), (Send, 0)]);
        assert_eq!(sealed.claims(), [Claim::Possible]);
        let refused = account(&[(Seal, 3), opened, (Send, 0), (Seal, 5)]);
        assert_eq!(refused.claims(), both);
        let anew = account(&[opened, (Seal, 0), opened, (Send, 0)]);
        assert_eq!(anew.claims(), both);
        let not_opened = account(&[opened, (Seal, 0), (Open { last: 4_096 }, 4), (Send, 0)]);
        assert_eq!(not_opened.claims(), [Claim::Possible]);
    }

    #[test]
    fn is_over_only_past_the_last() {
        let one = account(&[(Open { last: 1 }, 0), (Send, 0)]);
        let two = account(&[(Open { last: 1 }, 0), (Send, 0), (Send, 0)]);
        assert!(!one.is_over() && two.is_over());
    }

    #[test]
    fn notices_a_frame_out_of_its_time() {
        let sent = |due, before: &[(Call, u64)], after: &[(Call, u64)]| {
            let taken = [(take(due, 3), 1 << 8)];
            let opened = [(Open { last: 2 }, 0)];
            account(&[&opened[..], before, &taken[..], after].concat()).is_in_time()
        };
        let frame = (Send, FRAME | 1 << 8);
        let silence = (Send, 0);
        assert!(sent(1, &[], &[silence, frame]));
        assert!(!sent(1, &[], &[silence, silence, frame]));
        assert!(!sent(2, &[], &[frame, frame]));
        assert!(sent(1, &[silence], &[frame]));
    }

    #[test]
    fn refuses_a_ticket_of_no_taking() {
        let asked = [(Open { last: 0 }, 0), (Send, FRAME | 1 << 8)];
        let asked = asked.map(|(call, reply)| Asked { call, reply });
        assert!(Account::of(&asked).is_err());
        assert!(Account::of(&[]).is_err());
    }
}
