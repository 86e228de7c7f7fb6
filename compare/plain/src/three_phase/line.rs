//! One line of the limiter: a monitored value's "threshold and Run each" (02, A13),
//! and whether it is exceeded.

/// A sample that changes Exceeded: "A sample that changes Exceeded is a firing,
/// over or under." (01)
#[derive(Clone, Copy, Debug, PartialEq, Eq)]
pub enum Firing {
    Over,
    Under,
}

impl Firing {
    /// "Each firing logs 65 or 66" (02, A13)
    #[inline]
    pub const fn code(self) -> u8 {
        match self {
            Firing::Over => 65,
            Firing::Under => 66,
        }
    }
}

#[derive(Clone, Copy, Debug, Default, PartialEq, Eq)]
pub struct Line {
    pub threshold: i32,
    pub exceeded: bool,
    pub run: u32,
}

impl Line {
    /// How many samples change Exceeded: Over or Under.
    #[inline]
    pub(super) fn stretch(&self, over: u32, under: u32) -> u32 {
        if self.exceeded { under } else { over }
    }

    /// One sample of the monitored value, by Over and Under: "The sample is over if
    /// power is above threshold." (01)
    #[inline]
    pub(super) fn judge(&mut self, value: i64, (over, under): (u32, u32)) -> Option<Firing> {
        let is_over = value > i64::from(self.threshold);
        // "Not Exceeded: an over sample adds 1 to Run, any other sets Run 0"; "a
        // sample not over adds 1, an over one sets 0" while Exceeded (01).
        if is_over == self.exceeded {
            self.run = 0;
            return None;
        }
        self.run += 1;
        if self.run < self.stretch(over, under) {
            return None;
        }
        self.run = 0;
        self.exceeded = is_over;
        Some(if is_over { Firing::Over } else { Firing::Under })
    }
}
