//! A second implementation of the slot planner, written from documents 01 and
//! 02 and source document 000 alone. It is kept simple and literal: its worth is that
//! it shares nothing with the library it is compared with.

#![forbid(unsafe_code)]

pub mod call;
pub mod calls;
pub mod command;
pub mod compare;
pub mod counts;
pub mod ending;
pub mod faults;
pub mod field;
pub mod golden;
pub mod hand;
pub mod hindsight;
pub mod kind;
pub mod leap;
pub mod listing;
pub mod opening;
pub mod order;
pub mod pack;
pub mod payload;
pub mod plan;
pub mod programs;
pub mod questions;
pub mod reasons;
pub mod refusal;
pub mod round;
pub mod rules;
pub mod sealing;
pub mod send;
pub mod settings;
pub mod sound;
pub mod station;
pub mod substitute;
pub mod table;
pub mod taking;
pub mod tight;
pub mod writer;
