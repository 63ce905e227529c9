//! The library's archive, where LIRVEDD_ARCHIVE named one when this was built.

use second::compare::library::Library;

pub fn linked() -> Option<Box<dyn Library>> {
    #[cfg(archive)]
    return Some(Box::new(boundary::Archive));
    #[cfg(not(archive))]
    None
}

/// Its C boundary: a slice crosses as a pointer and a length.
#[cfg(archive)]
mod boundary {
    use second::call::Call;
    use second::compare::library::Library;

    extern "C" {
        fn lirvedd_open(last: u32, table: *mut u8, length: usize) -> u64;
        fn lirvedd_take(due: u32, weight: u32, table: *mut u8, length: usize) -> u64;
        fn lirvedd_take_class(
            due: u32,
            weight: u32,
            class: u32,
            table: *mut u8,
            length: usize,
        ) -> u64;
        fn lirvedd_send(table: *mut u8, length: usize) -> u64;
        fn lirvedd_seal(table: *mut u8, length: usize) -> u64;
        fn lirvedd_mark(slot: u32, table: *const u8, length: usize) -> u64;
        fn lirvedd_total(table: *const u8, length: usize) -> u64;
        fn lirvedd_substitute(ticket: u32, table: *const u8, length: usize) -> u64;
    }

    pub struct Archive;

    impl Library for Archive {
        fn ask(&self, call: Call, table: &mut [u8]) -> u64 {
            let (lent, length) = (table.as_mut_ptr(), table.len());
            // Each call is lent exactly the slice's bytes, for its own duration.
            unsafe {
                match call {
                    Call::Open { last } => lirvedd_open(last, lent, length),
                    Call::Take { due, weight } => lirvedd_take(due, weight, lent, length),
                    Call::TakeClass { due, weight, class } => {
                        lirvedd_take_class(due, weight, class, lent, length)
                    }
                    Call::Send => lirvedd_send(lent, length),
                    Call::Seal => lirvedd_seal(lent, length),
                    Call::Mark { slot } => lirvedd_mark(slot, lent, length),
                    Call::Total => lirvedd_total(lent, length),
                    Call::Substitute { ticket } => lirvedd_substitute(ticket, lent, length),
                }
            }
        }
    }
}
