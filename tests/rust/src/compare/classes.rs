//! Drawn classes, and takings with them.

use crate::call::Call;
use crate::compare::draw::Draw;
use crate::round::Round;

/// Classes that 14 refuses.
pub const BAD: &[u32] = &[4, 5, 7, 128, 255, 256, 259, 65_536, u32::MAX];

/// How the classes of one table or list are drawn.
#[derive(Clone, Copy)]
pub enum Classes {
    Any,
    /// The two ends alone.
    Ends,
    Only(u32),
}

pub fn classes(draw: &mut Draw) -> Classes {
    match draw.below(8) {
        0 => Classes::Only(draw.between(0, Round::CLASS.0)),
        1 => Classes::Ends,
        _ => Classes::Any,
    }
}

pub fn class(draw: &mut Draw, classes: Classes) -> u32 {
    match classes {
        Classes::Any => draw.between(0, Round::CLASS.0),
        Classes::Ends => *draw.pick(&[0, Round::CLASS.0]),
        Classes::Only(class) => class,
    }
}

/// A taking with a class so drawn, at times one that 14 refuses.
pub fn taking(draw: &mut Draw, due: u32, weight: u32, classes: Classes) -> Call {
    let class = match draw.below(60) {
        0 => *draw.pick(BAD),
        _ => class(draw, classes),
    };
    taking_of(draw, due, weight, class)
}

/// A taking of this class; class 0 by either call.
pub fn taking_of(draw: &mut Draw, due: u32, weight: u32, class: u32) -> Call {
    match class {
        0 if draw.once_in(2) => Call::Take { due, weight },
        _ => Call::TakeClass { due, weight, class },
    }
}
