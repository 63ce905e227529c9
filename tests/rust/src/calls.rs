//! The calls: each is a rule too, so that a fault may stand around one.

use crate::command::{self, Command};
use crate::counts::{Class, Slot, Ticket, Weight};
use crate::listing::{self, Entry};
use crate::opening;
use crate::payload;
use crate::questions::{self, Substitute};
use crate::refusal::Refusal;
use crate::rules::Rules;
use crate::sealing;
use crate::send::{self, Step};
use crate::station::{self, Reply};
use crate::taking;
use crate::writer;

macro_rules! calls {
    ($($(#[$doc:meta])* $name:ident($($given:ident: $sort:ty),*) -> $reply:ty = $rule:path;)*) => {
        #[derive(Clone)]
        pub struct Calls {
            $(pub $name: fn(&Rules, $($sort),*) -> $reply,)*
        }

        pub const CALLS: Calls = Calls {
            $($name: $rule,)*
        };

        impl Rules {
            $($(#[$doc])* pub fn $name(&self, $($given: $sort),*) -> $reply {
                (self.calls.$name)(self, $($given),*)
            })*
        }
    };
}

calls! {
    open(last: Slot, table: &mut [u8]) -> Result<(), Refusal> = opening::open;
    take(due: Slot, weight: Weight, table: &mut [u8]) -> Result<Ticket, Refusal> = taking::take;
    take_class(due: Slot, weight: Weight, class: Class, table: &mut [u8]) -> Result<Ticket, Refusal> = taking::take_class;
    send(table: &mut [u8]) -> Result<Step, Refusal> = send::send;
    seal(table: &mut [u8]) -> Result<(), Refusal> = sealing::seal;
    mark(slot: Slot, table: &[u8]) -> Result<Weight, Refusal> = questions::mark;
    total(table: &[u8]) -> Result<u64, Refusal> = questions::total;
    substitute(ticket: Ticket, table: &[u8]) -> Result<Substitute, Refusal> = questions::substitute;
    /// Lists the plan's rows into the lent list and returns their number.
    list(table: &[u8], entries: &mut [Entry]) -> Result<usize, Refusal> = listing::list;
    /// The line, its 0A included, as a command.
    read(line: &[u8]) -> Result<Command, Refusal> = command::read;
    /// Where the payload stands in a line: its start and its end.
    payload_place(line: &[u8]) -> (usize, usize) = payload::place;
    /// Writes a command's line into the lent buffer and answers its length.
    write(command: Command, payload: &[u8], buffer: &mut [u8]) -> Result<usize, Refusal> = writer::write;
    /// The program's table before its first line.
    fresh() -> Vec<u8> = station::fresh;
    /// The program's reply to one line. The last line may lack its 0A.
    reply(table: &mut [u8], line: &[u8]) -> Reply = station::reply;
    /// The program's whole output for a whole input.
    printed(input: &[u8]) -> String = station::printed;
}
