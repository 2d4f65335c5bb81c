//! The paper's "errors that look right", each to be built in on purpose, so that the comparison is seen to fail.
//!
//! They exist only where the build says `--cfg wrong`; elsewhere every question below is a constant and nothing of them is left.

/// One error that looks right.
#[derive(Clone, Copy, Debug, PartialEq, Eq)]
pub enum Wrong {
    /// Offsets are added modulo 2^32.
    Modulo = 1,
    /// A load is tested at its first and last byte only.
    GapLoad,
    /// A store is tested at its first and last byte only, the last against "some own region".
    GapStore,
    /// The allowed bytes of a denied word are stored.
    PartialStore,
    /// R0 is set before the word is taken when r is R0.
    AnswerFirst,
    /// Registers are tested before the body is fetched.
    RegistersFirst,
    /// The base is tested at the lower bound and the wrapped sum at the upper.
    BaseBelow,
}

#[cfg(wrong)]
pub use built_in::*;
#[cfg(not(wrong))]
pub use left_out::*;

#[cfg(not(wrong))]
mod left_out {
    use super::super::map::Domain;
    use super::super::state::Reason;
    use super::Wrong;

    #[inline(always)]
    pub fn is(_: Wrong) -> bool {
        false
    }

    #[inline(always)]
    pub fn readable(_: &Domain, _: u32, _: u8, _: u64) -> Option<Result<u64, u64>> {
        None
    }

    #[inline(always)]
    pub fn writable(_: &Domain, _: u32, _: u8, _: u64) -> Option<Result<u64, u64>> {
        None
    }

    #[inline(always)]
    pub fn store_allowed(_: &Domain, _: &mut [u8], _: u64, _: &[u8]) {}

    #[inline(always)]
    pub fn registers_first(_: &[u8], _: u8, _: u64) -> Result<(), Reason> {
        Ok(())
    }
}

#[cfg(wrong)]
mod built_in {
    use super::super::map::{Domain, Region};
    use super::super::state::Reason;
    use super::Wrong;
    use std::sync::atomic::{AtomicU8, Ordering};

    static CHOSEN: AtomicU8 = AtomicU8::new(0);

    const NAMES: [(&str, Wrong); 7] = [
        ("modulo", Wrong::Modulo),
        ("gap-load", Wrong::GapLoad),
        ("gap-store", Wrong::GapStore),
        ("partial-store", Wrong::PartialStore),
        ("answer-first", Wrong::AnswerFirst),
        ("registers-first", Wrong::RegistersFirst),
        ("base-below", Wrong::BaseBelow),
    ];

    pub fn names() -> impl Iterator<Item = &'static str> {
        NAMES.iter().map(|(name, _)| *name)
    }

    /// Builds the named error in; false where no error has this name.
    pub fn choose(name: &str) -> bool {
        let found = NAMES.iter().find(|(known, _)| *known == name);
        if let Some((_, wrong)) = found {
            CHOSEN.store(*wrong as u8, Ordering::Relaxed);
        }
        found.is_some()
    }

    pub fn is(wrong: Wrong) -> bool {
        CHOSEN.load(Ordering::Relaxed) == wrong as u8
    }

    fn lowest_denied(first: u64, length: u64, allowed: impl Fn(u64) -> bool) -> Result<u64, u64> {
        match (first..first + length).find(|&byte| !allowed(byte)) {
            Some(denied) => Err(denied),
            None => Ok(first),
        }
    }

    fn base_below(region: Region, base: u32, offset: u8, length: u64) -> Option<u64> {
        let wrapped = u64::from(base.wrapping_add(offset.into()));
        (base >= region.begin && wrapped + length <= u64::from(region.end)).then_some(wrapped)
    }

    pub fn readable(
        domain: &Domain,
        base: u32,
        offset: u8,
        length: u64,
    ) -> Option<Result<u64, u64>> {
        let wrapped = u64::from(base.wrapping_add(offset.into()));
        let first = u64::from(base) + u64::from(offset);
        let last = first + length - 1;
        if is(Wrong::Modulo) {
            return Some(lowest_denied(wrapped, length, |a| domain.may_read(a)));
        }
        if is(Wrong::GapLoad) && domain.may_read(first) && domain.may_read(last) {
            return Some(Ok(first));
        }
        if is(Wrong::BaseBelow) {
            let found = base_below(domain.code, base, offset, length)
                .or_else(|| base_below(domain.data, base, offset, length));
            return found.map(Ok);
        }
        None
    }

    pub fn writable(
        domain: &Domain,
        base: u32,
        offset: u8,
        length: u64,
    ) -> Option<Result<u64, u64>> {
        let wrapped = u64::from(base.wrapping_add(offset.into()));
        let first = u64::from(base) + u64::from(offset);
        let last = first + length - 1;
        if is(Wrong::Modulo) {
            return Some(lowest_denied(wrapped, length, |a| domain.may_write(a)));
        }
        if is(Wrong::GapStore) && domain.may_write(first) && domain.may_read(last) {
            return Some(Ok(first));
        }
        if is(Wrong::BaseBelow) {
            return base_below(domain.data, base, offset, length).map(Ok);
        }
        None
    }

    pub fn store_allowed(domain: &Domain, memory: &mut [u8], first: u64, value: &[u8]) {
        for (address, &byte) in (first..).zip(value) {
            if domain.may_write(address) {
                memory[address as usize] = byte;
            }
        }
    }

    pub fn registers_first(memory: &[u8], kind: u8, body: u64) -> Result<(), Reason> {
        let places = match kind {
            1 | 14 | 15 => 0..1,
            2..=12 | 17 => 0..2,
            16 => 1..2,
            _ => 0..0,
        };
        for place in places {
            let byte = memory.get((body + place) as usize).copied().unwrap_or(0);
            if byte > 7 {
                return Err(Reason::Register(byte));
            }
        }
        Ok(())
    }
}
