//! Moments in milliseconds.

/// A moment of the one clock that a handle is given, in milliseconds: 0 to [`Moment::LAST`].
///
/// A handle refuses a moment before that of an earlier call ([`Refusal::BadMoment`](crate::Refusal::BadMoment)).
#[derive(Clone, Copy, Debug, PartialEq, Eq, PartialOrd, Ord, Hash, Default)]
pub struct Moment(u64);

impl Moment {
    /// The first moment.
    pub const ZERO: Self = Self(0);
    /// The last moment: 4,000,000,000,000,000 milliseconds.
    pub const LAST: Self = Self(4_000_000_000_000_000);

    /// The moment of so many milliseconds; `None` past the last one.
    pub const fn from_ms(ms: u64) -> Option<Self> {
        if ms <= Self::LAST.0 {
            Some(Self(ms))
        } else {
            None
        }
    }

    /// Its milliseconds.
    pub const fn ms(self) -> u64 {
        self.0
    }
}

/// Extends a counter of milliseconds of 32 bits, which goes back to 0 after 49 days. It has to be read once in 49 days.
#[derive(Clone, Copy, Debug, Default)]
pub struct Clock(Moment);

impl Clock {
    /// A clock that stands at 0.
    pub const fn new() -> Self {
        Self(Moment::ZERO)
    }

    /// The moment at which the counter has this value. It is never before that of an earlier call.
    pub const fn moment(&mut self, ticks: u32) -> Moment {
        let passed = ticks.wrapping_sub(self.0 .0 as u32) as u64;
        if let Some(moment) = Moment::from_ms(self.0 .0.saturating_add(passed)) {
            self.0 = moment;
        }
        self.0
    }
}
