//! Faults of soundness, shown by taking. Of a table that may not be sound every
//! comparison asks a taking first, so that no plan is made of it.

use super::change::{clause, waive};
use super::Entry;
use crate::round::Round;
use crate::sound::{each, head_zeros, is_zero, pairs, row_zeros, unused};
use crate::table::{DUE, KIND, LAST, ROW, SEALED, SLOT, WEIGHT};

pub const FAULTS: &[Entry] = &[
    ("OverUnsound", "a current slot of the last plus 1 is unsound", |rules| {
        clause(&mut rules.sound, "current slot", |table| SLOT.get(table) <= LAST.get(table));
    }),
    ("NextTicketUnchecked", "the next ticket may be anything", |rules| {
        waive(&mut rules.sound, "next ticket");
    }),
    ("GreatestWeightUnsound", "a row may not weigh 16,777,216", |rules| {
        clause(&mut rules.sound, "weights", |table| {
            each(table, WEIGHT, |weight| (1..Round::WEIGHT.0).contains(&weight))
        });
    }),
    ("KeptBlankUnsound", "a kept blank is unsound", |rules| {
        clause(&mut rules.sound, "kinds", |table| each(table, KIND, |kind| kind == 0));
    }),
    ("SealedUnsound", "a sealed round is unsound", |rules| {
        clause(&mut rules.sound, "sealed", |table| SEALED.get(table) == 0);
    }),
];

pub const HIDDEN: &[Entry] = &[
    ("SealedByTwo", "a 2 where a round is sealed is sound", |rules| {
        clause(&mut rules.sound, "sealed", |table| SEALED.get(table) <= 2);
    }),
    ("SealUnchecked", "the byte that seals may be anything", |rules| {
        waive(&mut rules.sound, "sealed");
    }),
    ("HeadZerosUnchecked", "the head's zero bytes may be anything", |rules| {
        clause(&mut rules.sound, "zero bytes", row_zeros);
    }),
    ("RowZerosUnchecked", "a used row's zero bytes may be anything", |rules| {
        clause(&mut rules.sound, "zero bytes", head_zeros);
    }),
    ("CountUnchecked", "the rows in use may pass the rows", |rules| {
        waive(&mut rules.sound, "rows in use");
    }),
    ("LastUnchecked", "the last slot may be above 4,095", |rules| {
        waive(&mut rules.sound, "last slot");
    }),
    ("SlotUnchecked", "the current slot may be past the last plus 1", |rules| {
        waive(&mut rules.sound, "current slot");
    }),
    ("TicketOrderUnchecked", "tickets may fall", |rules| {
        clause(&mut rules.sound, "tickets rise from 1 up", |table| {
            pairs(table).all(|(_, ticket)| ticket > 0)
        });
    }),
    ("EqualTicketsSound", "tickets may be equal", |rules| {
        clause(&mut rules.sound, "tickets rise from 1 up", |table| {
            pairs(table).all(|(before, ticket)| ticket >= before && ticket > 0)
        });
    }),
    ("TicketZeroSound", "the first ticket may be 0", |rules| {
        clause(&mut rules.sound, "tickets rise from 1 up", |table| {
            pairs(table).skip(1).all(|(before, ticket)| ticket > before)
        });
    }),
    ("TicketAtNextSound", "a ticket may reach the next ticket", |rules| {
        waive(&mut rules.sound, "tickets below the next");
    }),
    ("DueBeforeUnchecked", "rows may be due before the current slot", |rules| {
        clause(&mut rules.sound, "due slots", |table| {
            each(table, DUE, |due| due <= LAST.get(table))
        });
    }),
    ("DueAfterUnchecked", "rows may be due after the last slot", |rules| {
        clause(&mut rules.sound, "due slots", |table| {
            each(table, DUE, |due| due >= SLOT.get(table))
        });
    }),
    ("WeightZeroSound", "a row may weigh 0", |rules| {
        clause(&mut rules.sound, "weights", |table| {
            each(table, WEIGHT, |weight| weight <= Round::WEIGHT.0)
        });
    }),
    ("WeightAboveSound", "a row may weigh more than 16,777,216", |rules| {
        clause(&mut rules.sound, "weights", |table| each(table, WEIGHT, |weight| weight >= 1));
    }),
    ("KindUnchecked", "a kind may be anything", |rules| {
        waive(&mut rules.sound, "kinds");
    }),
    ("UnusedRowsUnchecked", "unused rows may be anything", |rules| {
        waive(&mut rules.sound, "unused rows");
    }),
    (
        "UnusedEighthUnchecked",
        "of eight bytes of an unused row the last may be anything",
        |rules| {
            clause(&mut rules.sound, "unused rows", |table| {
                unused(table).chunks(8).all(|eight| is_zero(&eight[..7]))
            });
        },
    ),
    ("UnusedWordsAdded", "an unused row is zero where its three words add up to it", |rules| {
        clause(&mut rules.sound, "unused rows", |table| {
            unused(table).chunks(ROW).all(|row| words_added(row) == 0)
        });
    }),
];

fn words_added(row: &[u8]) -> u64 {
    let word = |eight: &[u8]| u64::from_le_bytes(eight.try_into().expect("eight bytes"));
    row.chunks(8).map(word).fold(0, u64::wrapping_add)
}
