//! What hindsight could have gained (request L14): what a round sent against
//! the most that anyone could have sent from its accepted frames.

pub mod account;
pub mod best;
pub mod changes;
pub mod check;
pub mod drawn;
pub mod family;
pub mod fault;
pub mod gain;
pub mod kinds;
pub mod recorded;
pub mod script;
pub mod search;
