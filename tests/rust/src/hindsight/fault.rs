//! Faults in planning and in counting, each of which must be seen on some
//! round: that is what shows that the check can fail.

use crate::call::Call;
use crate::compare::library::Library;
use crate::counts::{Slot, Ticket};
use crate::ending::Named;
use crate::faults;
use crate::hindsight::account::{Account, Offer};
use crate::hindsight::best::best;
use crate::hindsight::check::check;
use crate::hindsight::gain::{Claim, Gain};
use crate::hindsight::script::{Asked, Script};
use crate::rules::Rules;
use crate::table::decode;

pub enum Fault {
    /// Played in the library's place, it breaks this claim.
    Planner(&'static str, Claim),
    /// Played in the library's place, it differs from the second implementation.
    Library(&'static str),
    /// S is counted so, and is then above B.
    Sum(&'static str, fn(&dyn Library, &Script) -> u64),
    /// S is counted so, and is then not the second implementation's.
    OtherSum(&'static str, fn(&dyn Library, &Script) -> u64),
    /// B is counted so, and breaks this claim.
    Best(&'static str, Claim, fn(&[Offer]) -> u64),
}

pub const FAULTS: &[Fault] = &[
    Fault::Planner("SubstituteNotCounted", Claim::Golden),
    Fault::Planner("EarliestDueSent", Claim::Golden),
    Fault::Planner("PhiLeftOut", Claim::Golden),
    Fault::Planner("PhiOnOwnWeight", Claim::Golden),
    Fault::Planner("SubstituteFromAnywhere", Claim::Golden),
    Fault::Planner("SubstituteAlwaysBlank", Claim::Golden),
    Fault::Planner("HSetToMark", Claim::Golden),
    Fault::Planner("MarksAfterShift", Claim::Golden),
    Fault::Planner("KeptBlankAsFrame", Claim::Possible),
    Fault::Planner("KeptBlankSentAsFrame", Claim::Possible),
    Fault::Library("RNotRaised"),
    Fault::Library("GreatestWeightRefused"),
    Fault::Library("SealedTakes"),
    Fault::Library("SealedPlaysPlanM"),
    Fault::Library("SealedRowsFirst"),
    Fault::Library("SealedPastLast"),
    Fault::Sum("S counts kept blanks, by their tickets", with_kept_blanks),
    Fault::OtherSum("S counts current weights", with_current_weights),
    Fault::Best("B leaves a frame out", Claim::Possible, |offers| {
        best(offers.get(1..).unwrap_or_default())
    }),
    Fault::Best("B has frames go too early", Claim::Golden, |offers| {
        best(&changed(offers, |offer| offer.from = Slot(0)))
    }),
    Fault::Best("B has frames go a slot late", Claim::Golden, |offers| {
        best(&changed(offers, |offer| offer.to.0 += 1))
    }),
    Fault::Best("B has two frames in a slot", Claim::Golden, |offers| {
        best(&changed(offers, |offer| {
            offer.from = Slot(2 * offer.from.0);
            offer.to = Slot(2 * offer.to.0 + 1);
        }))
    }),
];

impl Named for Fault {
    fn says(&self) -> String {
        match self {
            Fault::Planner(name, _) | Fault::Library(name) => {
                let fault = faults::Fault::named(name);
                fault.expect("its name").says()
            }
            Fault::Sum(says, _) | Fault::OtherSum(says, _) | Fault::Best(says, ..) => {
                says.to_string()
            }
        }
    }
}

/// How a round shows a fault, where it does.
type Shown<'a> = Box<dyn Fn(&Script) -> Option<String> + 'a>;

impl Fault {
    pub fn shown<'a>(&self, library: &'a dyn Library) -> Shown<'a> {
        match *self {
            Fault::Planner(name, claim) => {
                let second = faults::with(name);
                Box::new(move |script| {
                    let (gain, account) = right(&second, script);
                    broken(claim, gain, &account)
                })
            }
            Fault::Library(name) => {
                let second = faults::with(name);
                Box::new(move |script| check(&second, script).err())
            }
            Fault::Sum(_, sum) => Box::new(move |script| {
                let (mut gain, account) = right(library, script);
                gain.sent = sum(library, script);
                broken(Claim::Possible, gain, &account)
            }),
            Fault::OtherSum(_, sum) => Box::new(move |script| {
                let sent = sum(library, script);
                let second = right(Rules::PAPERS, script).0.sent;
                (sent != second).then(|| format!("another S: {sent}, the second's {second}"))
            }),
            Fault::Best(_, claim, most) => Box::new(move |script| {
                let (mut gain, account) = right(library, script);
                gain.best = most(&account.offers);
                broken(claim, gain, &account)
            }),
        }
    }
}

/// S and B counted as they should be, and the account.
fn right(library: &dyn Library, script: &Script) -> (Gain, Account) {
    let account = Account::of(&script.play(library)).expect("an account");
    (Gain::of(&account), account)
}

/// Whether a claim is made of the round, and does not hold.
fn broken(claim: Claim, gain: Gain, account: &Account) -> Option<String> {
    let is_broken = account.claims().contains(&claim) && gain.breaks(claim);
    is_broken.then(|| format!("{claim}: {gain}"))
}

/// The offers, each changed.
fn changed(offers: &[Offer], change: fn(&mut Offer)) -> Vec<Offer> {
    let mut offers = offers.to_vec();
    offers.iter_mut().for_each(change);
    offers
}

/// S with each kept blank read as a frame.
fn with_kept_blanks(library: &dyn Library, script: &Script) -> u64 {
    let as_frame = |asked: Asked| match (asked.call, asked.reply >> 32 & 3) {
        (Call::Send, 2) => Asked {
            reply: asked.reply ^ 3 << 32,
            ..asked
        },
        _ => asked,
    };
    let asked: Vec<Asked> = script.play(library).into_iter().map(as_frame).collect();
    Account::of(&asked).expect("an account").sum()
}

/// S with each frame's weight as it stands in the table before it goes.
fn with_current_weights(library: &dyn Library, script: &Script) -> u64 {
    let mut table = script.table.clone();
    let mut sum = 0;
    for call in &script.calls {
        let before = table.clone();
        let reply = library.ask(*call, &mut table);
        match call {
            Call::Open { .. } if reply == 0 => sum = 0,
            Call::Send if reply & 0xFF == 0 && reply >> 32 & 3 == 1 => {
                let round = decode(&before);
                let place = round.place(Ticket((reply >> 8 & 0xFF_FFFF) as u32));
                sum += u64::from(round.rows[place.expect("its row")].weight.0);
            }
            _ => (),
        }
    }
    sum
}
