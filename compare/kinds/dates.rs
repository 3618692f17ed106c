//! Local dates: every day in range with every offset of both signs, and those that are refused.

use super::clocks::drawn_clock;
use super::Kind as Cases;
use crate::draws::Draws;
use crate::codes::date_code;
use crate::library;
use crate::second::clock::{all_dates, date_by, Clock, Date, FIRST_DAY, LAST_DAY};

/// A calendar that was walked through once.
pub struct Calendar {
    dates: Vec<(u32, u32, u32)>,
}

impl Calendar {
    pub fn walked() -> Calendar {
        Calendar { dates: all_dates() }
    }

    pub fn date(&self, held: Option<Clock>) -> Result<Date, u8> {
        date_by(held, |day| self.dates[(day - FIRST_DAY) as usize])
    }
}

fn try_date(cases: &mut Cases, calendar: &Calendar, clock: Clock) {
    let second = date_code(calendar.date(Some(clock)));
    cases.equal(|| format!("{clock:?}"), library::local_date(true, &clock), second);
}

/// Each day with each offset, the time drawn.
pub fn each_day() -> Cases {
    let mut cases = Cases::new("local dates of all days and offsets");
    let calendar = Calendar::walked();
    let mut draws = Draws::from(131);
    for day in FIRST_DAY..=LAST_DAY {
        for offset in 0..=24 {
            for negative in [false, true] {
                let (hour, minute) = (draws.below(24) as u8, draws.below(60) as u8);
                try_date(&mut cases, &calendar, Clock { day, hour, minute, negative, offset });
            }
        }
    }
    cases
}

/// Drawn clocks in range and out of it, days at and past both edges at every half hour, and no clock.
pub fn refused() -> Cases {
    let mut cases = Cases::new("local dates at the edges");
    let calendar = Calendar::walked();
    let mut draws = Draws::from(132);
    for _ in 0..20_000 {
        try_date(&mut cases, &calendar, drawn_clock(&mut draws));
    }
    for day in [FIRST_DAY - 1, FIRST_DAY, FIRST_DAY + 1, LAST_DAY - 1, LAST_DAY, LAST_DAY + 1, 0, u32::MAX] {
        for half in 0..48 {
            for offset in 0..=24 {
                for negative in [false, true] {
                    let clock = Clock { day, hour: half / 2, minute: half % 2 * 30, negative, offset };
                    try_date(&mut cases, &calendar, clock);
                }
            }
        }
    }
    let none = library::local_date(false, &drawn_clock(&mut draws));
    cases.equal(|| "no clock".to_string(), none, date_code(calendar.date(None)));
    cases
}
