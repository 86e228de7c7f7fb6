//! The emergency profile and the group ids that it may name (02, A3).

use crate::meter::{Answer, DISCONNECT, Machine};
use crate::table::Table;
use crate::{fault, refusal};

/// "up to eight group ids (16 bits)" (02, A3)
pub const GROUPS: usize = 8;

/// "duration outside 1 to 604,800" (02, A3)
pub const LONGEST_EMERGENCY: u32 = 604_800;

/// "state 1 (0 none, 1 waiting, 2 active)" (02, A3)
pub const NO_PROFILE: u8 = 0;
pub const WAITING: u8 = 1;
pub const ACTIVE: u8 = 2;

/// The profile that waits or runs; all zero where there is none.
#[derive(Clone, Copy, Debug, PartialEq, Eq)]
pub struct EmergencyProfile {
    pub id: u16,
    pub threshold: i32,
    pub activation: u32,
    pub duration: u32,
    pub left: u32,
    pub state: u8,
}

/// The group ids in the order of their call.
#[derive(Clone, Copy, Debug, PartialEq, Eq)]
pub struct Groups {
    pub count: u8,
    pub ids: [u16; GROUPS],
}

impl EmergencyProfile {
    pub const NONE: EmergencyProfile = EmergencyProfile {
        id: 0,
        threshold: 0,
        activation: 0,
        duration: 0,
        left: 0,
        state: NO_PROFILE,
    };

    /// "with state 0 the first five are zero; samples left equals the duration
    /// while waiting and is 1 to the duration while active, threshold and
    /// duration then within kind 17's ranges; state is at most 2" (02, A3)
    #[inline]
    pub(crate) fn sound<const FAULT: u8>(&self) -> bool {
        match self.state {
            NO_PROFILE if FAULT == fault::READS_FIELDS_WITHOUT_PROFILE => true,
            NO_PROFILE => *self == EmergencyProfile::NONE,
            _ if profile_in_range(self.threshold, self.duration).is_err() => false,
            WAITING | ACTIVE if FAULT == fault::READS_ANY_SAMPLES_LEFT => true,
            WAITING => self.left == self.duration,
            ACTIVE => (1..=self.duration).contains(&self.left),
            _ => false,
        }
    }
}

impl Groups {
    pub const NONE: Groups = Groups {
        count: 0,
        ids: [0; GROUPS],
    };

    /// "a count, then the ids two to a number, high half first" (02, A3); what
    /// is past the count is zero.
    fn of<const FAULT: u8>(count: usize, pairs: [u32; GROUPS / 2]) -> Groups {
        let mut groups = Groups {
            count: count as u8,
            ids: [0; GROUPS],
        };
        for (place, id) in groups.ids.iter_mut().enumerate() {
            let pair = pairs[place / 2];
            if place < count || FAULT == fault::KEEPS_IDS_PAST_COUNT {
                *id = (if place % 2 == 0 { pair >> 16 } else { pair }) as u16;
            }
        }
        groups
    }

    /// "count at most 8, ids past the count are zero" (02, A3)
    #[inline]
    pub(crate) fn sound(&self) -> bool {
        let past = self.ids.get(usize::from(self.count)..);
        past.is_some_and(|past| past.iter().all(|&id| id == 0))
    }

    /// Whether the id, at its full width, is in the group.
    fn contain(&self, id: u32) -> bool {
        let held = &self.ids[..usize::from(self.count)];
        held.iter().any(|&held| u32::from(held) == id)
    }
}

impl<const FAULT: u8, const VECTORS: bool> Machine<FAULT, VECTORS> {
    /// Kind 16.
    #[inline]
    pub fn set_emergency_groups(
        &mut self,
        table: &Table,
        count: u32,
        pairs: [u32; GROUPS / 2],
    ) -> Answer {
        self.demand_sound(table)?;
        self.set_emergency_groups_sound(count, pairs)
    }

    /// Kind 17.
    #[inline]
    pub fn set_emergency_profile(
        &mut self,
        table: &Table,
        id: u32,
        threshold: i32,
        activation: u32,
        duration: u32,
    ) -> Answer {
        self.demand_sound(table)?;
        self.set_emergency_profile_sound(id, threshold, activation, duration)
    }

    /// Kind 16. "14, more than eight ids (kind 16)"; "new groups don't end it"
    /// (02, A3)
    #[inline]
    pub(crate) fn set_emergency_groups_sound(
        &mut self,
        count: u32,
        pairs: [u32; GROUPS / 2],
    ) -> Answer {
        let count = match FAULT {
            fault::CUTS_GROUP_COUNT => count & 0xff,
            _ => count,
        };
        if count > GROUPS as u32 {
            return Err(refusal::GROUPS);
        }
        self.groups = Groups::of::<FAULT>(count as usize, pairs);
        if FAULT == fault::GROUPS_END_PROFILE {
            self.replace_profile(EmergencyProfile::NONE);
        }
        Ok(None)
    }

    /// Kind 17. "15, id not in the group (kind 17); 16, duration outside 1 to
    /// 604,800, or threshold negative, after 15"; "It replaces any earlier
    /// profile and waits" (02, A3)
    #[inline]
    pub(crate) fn set_emergency_profile_sound(
        &mut self,
        id: u32,
        threshold: i32,
        activation: u32,
        duration: u32,
    ) -> Answer {
        let looked_up = match FAULT {
            fault::CUTS_GROUP_ID => id & 0xffff,
            _ => id,
        };
        if FAULT == fault::EXCHANGES_15_AND_16 {
            profile_in_range(threshold, duration)?;
        }
        if !self.groups.contain(looked_up) {
            return Err(refusal::GROUP_ID);
        }
        profile_in_range(threshold, duration)?;
        let profile = EmergencyProfile {
            id: id as u16,
            threshold,
            activation,
            duration,
            left: duration,
            state: WAITING,
        };
        if FAULT == fault::REPLACES_SILENTLY {
            self.profile = profile;
            return Ok(None);
        }
        self.replace_profile(profile);
        Ok(None)
    }

    /// What samples are compared with: an active profile's threshold, else the
    /// normal one.
    #[inline]
    pub(crate) fn threshold_in_force(&self) -> i32 {
        if self.profile.state == ACTIVE {
            return self.profile.threshold;
        }
        self.threshold
    }

    /// "It goes active with the first sample whose advanced clock has reached
    /// activation" (02, A3)
    #[inline]
    pub(crate) fn start_profile(&mut self) {
        let profile = self.profile;
        if profile.state != WAITING || self.clock < profile.activation {
            return;
        }
        if FAULT == fault::STARTS_PAST_ACTIVATION && self.clock == profile.activation {
            return;
        }
        let left = match FAULT {
            fault::GOVERNS_ONE_FEWER => profile.left.saturating_sub(1).max(1),
            fault::GOVERNS_ONE_MORE => profile.left + 1,
            _ => profile.left,
        };
        self.replace_profile(EmergencyProfile {
            left,
            state: ACTIVE,
            ..profile
        });
    }

    /// "and governs that many samples, that one included"; "after the last
    /// governed sample the state is 0" (02, A3)
    #[inline]
    pub(crate) fn count_governed_sample(&mut self) {
        let profile = self.profile;
        if profile.state != ACTIVE {
            return;
        }
        let left = match FAULT {
            fault::ENDS_BY_CLOCK => left_by_clock(&profile, self.clock),
            _ => profile.left - 1,
        };
        if left == 0 {
            self.replace_profile(EmergencyProfile::NONE);
            return;
        }
        self.profile.left = left;
    }

    /// "Whenever the threshold in force becomes another number, Run is 0 and 67
    /// is logged" (02, A3)
    #[inline]
    fn replace_profile(&mut self, profile: EmergencyProfile) {
        let before = self.threshold_in_force();
        self.profile = profile;
        if self.threshold_in_force() == before && FAULT != fault::LOGS_67_WITHOUT_CHANGE {
            return;
        }
        if FAULT != fault::CHANGE_KEEPS_RUN {
            self.run = 0;
        }
        if FAULT == fault::CHANGE_ENDS_EXCEEDED {
            self.exceeded = false;
        }
        self.note(DISCONNECT, 67);
    }
}

/// "16, duration outside 1 to 604,800, or threshold negative" (02, A3)
#[inline]
fn profile_in_range(threshold: i32, duration: u32) -> Result<(), u8> {
    if threshold < 0 || !(1..=LONGEST_EMERGENCY).contains(&duration) {
        return Err(refusal::PROFILE);
    }
    Ok(())
}

/// A blunder's samples left: the seconds from the clock to the end that
/// activation and duration name.
fn left_by_clock(profile: &EmergencyProfile, clock: u32) -> u32 {
    let end = profile.activation.saturating_add(profile.duration);
    let left = end.saturating_sub(clock.saturating_add(1));
    left.min(profile.duration)
}

#[cfg(test)]
mod tests {
    use super::*;

    const WHOLE: EmergencyProfile = EmergencyProfile {
        id: 7,
        threshold: 100,
        activation: 5,
        duration: 4,
        left: 4,
        state: WAITING,
    };

    fn sound(profile: EmergencyProfile) -> bool {
        profile.sound::<{ fault::NONE }>()
    }

    #[test]
    fn without_a_profile_all_is_zero() {
        let none = EmergencyProfile::NONE;
        assert!(sound(none));
        assert!(!sound(EmergencyProfile { id: 1, ..none }));
        assert!(!sound(EmergencyProfile {
            threshold: 1,
            ..none
        }));
        assert!(!sound(EmergencyProfile {
            activation: 1,
            ..none
        }));
        assert!(!sound(EmergencyProfile {
            duration: 1,
            ..none
        }));
        assert!(!sound(EmergencyProfile { left: 1, ..none }));
    }

    #[test]
    fn samples_left_follow_the_state() {
        let with = |state, left| EmergencyProfile {
            state,
            left,
            ..WHOLE
        };
        let lefts = |state| (0..=6).filter(move |&left| sound(with(state, left)));
        assert_eq!(lefts(WAITING).collect::<Vec<_>>(), [4]);
        assert_eq!(lefts(ACTIVE).collect::<Vec<_>>(), [1, 2, 3, 4]);
        for state in [NO_PROFILE, 3, 128, 255] {
            assert_eq!(lefts(state).count(), 0, "state {state}");
        }
    }

    #[test]
    fn a_profile_keeps_its_ranges() {
        let with = |threshold, duration| EmergencyProfile {
            threshold,
            duration,
            left: duration,
            ..WHOLE
        };
        assert!(sound(with(0, 1)));
        assert!(sound(with(i32::MAX, LONGEST_EMERGENCY)));
        assert!(!sound(with(-1, 1)));
        assert!(!sound(with(0, 0)));
        assert!(!sound(with(0, LONGEST_EMERGENCY + 1)));
    }

    #[test]
    fn ids_stand_two_to_a_number() {
        let pairs = [0x0001_0002, 0x0003_0004, 0x0005_0006, 0xffff_0008];
        let of = |count| Groups::of::<{ fault::NONE }>(count, pairs);
        assert_eq!(of(8).ids, [1, 2, 3, 4, 5, 6, 0xffff, 8]);
        assert_eq!(of(3).ids, [1, 2, 3, 0, 0, 0, 0, 0]);
        assert_eq!(of(0), Groups::NONE);
        assert!(of(3).contain(3));
        assert!(!of(3).contain(4));
        assert!(!of(3).contain(0));
        assert!(!of(3).contain(0x0001_0003));
        assert!(!of(0).contain(0));
    }

    #[test]
    fn ids_past_the_count_are_zero() {
        for count in 0..=GROUPS {
            let mut groups = Groups::NONE;
            groups.count = count as u8;
            assert!(groups.sound());
            for place in 0..GROUPS {
                let mut groups = groups;
                groups.ids[place] = 0x100;
                assert_eq!(groups.sound(), place < count, "id {place} of {count}");
            }
        }
        for count in 9..=255 {
            let groups = Groups {
                count,
                ..Groups::NONE
            };
            assert!(!groups.sound(), "count {count}");
        }
    }
}
