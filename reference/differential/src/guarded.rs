//! What is lent to the library, between guards.

/// What stands on both sides of a buffer.
pub const BYTE_GUARD: u8 = 0xA5;
const GUARDS: usize = 4;

/// Numbers or bytes with guards on both sides, to see that nothing is written there.
pub struct Guarded<T> {
    whole: Vec<T>,
    guard: T,
}

impl<T: Copy + PartialEq> Guarded<T> {
    pub fn new(inside: &[T], guard: T) -> Guarded<T> {
        let guards = [guard; GUARDS];
        Guarded {
            whole: [&guards, inside, &guards].concat(),
            guard,
        }
    }

    pub fn inside(&mut self) -> &mut [T] {
        let end = self.whole.len() - GUARDS;
        &mut self.whole[GUARDS..end]
    }

    pub fn is_kept(&self) -> bool {
        let end = self.whole.len() - GUARDS;
        let guards = self.whole[..GUARDS].iter().chain(&self.whole[end..]);
        guards.copied().all(|guard| guard == self.guard)
    }
}
