//! The instant of a date of RFC 2822, as jiff's strict reader reads it.

use crate::ends::first_of;

/// The least and the greatest instant that is one, in seconds since 1970.
const INSTANTS: std::ops::RangeInclusive<i64> = -377_705_023_201..=253_402_207_200;

/// The seconds since 1970 of a date; none where it is no UTF-8 or no date.
pub fn seconds(date: &[u8]) -> Option<i64> {
    let mut text = Text(std::str::from_utf8(date).ok()?.as_bytes());
    text.skip_space();
    let weekday = text.weekday()?;
    let days = text.days()?;
    if weekday.map_or(false, |weekday| weekday != weekday_of(days)) {
        return None;
    }
    let clock = text.clock()?;
    let offset = text.offset()?;
    text.skip_space();
    text.skip_comment()?;
    let seconds = days * 86_400 + clock - offset;
    (text.0.is_empty() && INSTANTS.contains(&seconds)).then_some(seconds)
}

/// What is left of a text. Each call reads what is at its front.
struct Text<'a>(&'a [u8]);

impl Text<'_> {
    /// Whether there was white space.
    fn skip_space(&mut self) -> bool {
        let count = self.0.iter().take_while(|byte| byte.is_ascii_whitespace()).count();
        self.0 = &self.0[count..];
        count > 0
    }

    fn space(&mut self) -> Option<()> {
        self.skip_space().then_some(())
    }

    fn byte(&mut self, wanted: u8) -> Option<()> {
        self.0 = self.0.strip_prefix(&[wanted])?;
        Some(())
    }

    /// Exactly so many digits.
    fn digits(&mut self, count: usize) -> Option<i64> {
        let (digits, rest) = (self.0.get(..count)?, &self.0[count..]);
        let number = digits
            .iter()
            .try_fold(0, |number, byte| byte.is_ascii_digit().then(|| number * 10 + i64::from(byte - b'0')))?;
        self.0 = rest;
        Some(number)
    }

    /// Two digits, up to a greatest number.
    fn two_digits(&mut self, most: i64) -> Option<i64> {
        self.digits(2).filter(|number| *number <= most)
    }

    /// Which of the names of three letters this is, in any case.
    fn name(&mut self, names: &[&[u8; 3]]) -> Option<usize> {
        let found: &[u8; 3] = first_of(self.0)?;
        self.0 = &self.0[found.len()..];
        names.iter().position(|name| name.eq_ignore_ascii_case(found))
    }

    /// The weekday, from Sunday; it may be left out where the text goes on with a digit.
    fn weekday(&mut self) -> Option<Option<i64>> {
        const NAMES: [&[u8; 3]; 7] = [b"sun", b"mon", b"tue", b"wed", b"thu", b"fri", b"sat"];
        if self.0.first()?.is_ascii_digit() {
            return Some(None);
        }
        let weekday = self.name(&NAMES)?;
        self.skip_space();
        self.byte(b',')?;
        self.skip_space();
        Some(Some(weekday as i64))
    }

    /// A day, a month and a year, as days since 1970.
    fn days(&mut self) -> Option<i64> {
        let day = self.digits(2).or_else(|| self.digits(1))?;
        self.space()?;
        let month = self.month()?;
        self.space()?;
        let year = self.year()?;
        self.space()?;
        (1..=days_in(year, month)).contains(&day).then(|| days_since_1970(year, month, day))
    }

    fn month(&mut self) -> Option<i64> {
        const NAMES: [&[u8; 3]; 12] =
            [b"jan", b"feb", b"mar", b"apr", b"may", b"jun", b"jul", b"aug", b"sep", b"oct", b"nov", b"dec"];
        Some(self.name(&NAMES)? as i64 + 1)
    }

    /// A year of four digits, of three, which count from 1900, or of two, which are from 1950 to 2049.
    fn year(&mut self) -> Option<i64> {
        let of_three = |year| year + 1_900;
        let of_two = |year| if year < 50 { year + 2_000 } else { year + 1_900 };
        let year = self.digits(4).or_else(|| self.digits(3).map(of_three));
        year.or_else(|| self.digits(2).map(of_two))
    }

    /// Hours, minutes and seconds, which may be left out, and the white space after them. Second 60 is read as 59.
    fn clock(&mut self) -> Option<i64> {
        let hours = self.two_digits(23)?;
        self.skip_space();
        self.byte(b':')?;
        self.skip_space();
        let minutes = self.two_digits(59)?;
        let mut was_space = self.skip_space();
        let mut seconds = 0;
        if self.byte(b':').is_some() {
            self.skip_space();
            seconds = self.two_digits(60)?.min(59);
            was_space = self.skip_space();
        }
        was_space.then_some((hours * 60 + minutes) * 60 + seconds)
    }

    /// The seconds by which the zone is ahead of UTC.
    fn offset(&mut self) -> Option<i64> {
        let sign = match self.0.first()? {
            b'+' => 1,
            b'-' => -1,
            _ => return self.obsolete_zone(),
        };
        self.0 = &self.0[1..];
        let hours = self.two_digits(25)?;
        let minutes = self.two_digits(59)?;
        Some(sign * (hours * 60 + minutes) * 60)
    }

    /// A zone of the obsolete syntax. One that has no meaning is UTC.
    fn obsolete_zone(&mut self) -> Option<i64> {
        const LONGEST: usize = 5;
        let len = self.0.iter().take_while(|byte| !byte.is_ascii_whitespace()).count();
        let (zone, rest) = self.0.split_at(len.min(LONGEST));
        self.0 = rest;
        let hours = match zone.to_ascii_lowercase().as_slice() {
            b"edt" => 4,
            b"est" | b"cdt" => 5,
            b"cst" | b"mdt" => 6,
            b"mst" | b"pdt" => 7,
            b"pst" => 8,
            b"ut" => 0,
            [_, _] | [] | [b'j'] => return None,
            other => other.iter().all(u8::is_ascii_lowercase).then_some(0)?,
        };
        Some(-hours * 3_600)
    }

    /// A comment in parentheses, which may nest and may quote a byte by a backslash, and the white space after it.
    fn skip_comment(&mut self) -> Option<()> {
        if self.byte(b'(').is_none() {
            return Some(());
        }
        let mut depth = 1_u8;
        while depth > 0 {
            let (byte, rest) = self.0.split_first()?;
            self.0 = rest;
            match byte {
                b'(' => depth = depth.checked_add(1)?,
                b')' => depth -= 1,
                b'\\' => self.0 = rest.get(1..)?,
                _ => (),
            }
        }
        self.skip_space();
        Some(())
    }
}

fn is_leap(year: i64) -> bool {
    year % 4 == 0 && (year % 100 != 0 || year % 400 == 0)
}

fn days_in(year: i64, month: i64) -> i64 {
    match month {
        2 if is_leap(year) => 29,
        2 => 28,
        4 | 6 | 9 | 11 => 30,
        _ => 31,
    }
}

/// The days since 1970 in the calendar of Gregory. Years begin with March here, so that a leap day is a year's last.
fn days_since_1970(year: i64, month: i64, day: i64) -> i64 {
    const DAYS_TO_1970: i64 = 719_468;
    let (year, month) = if month > 2 { (year, month - 3) } else { (year - 1, month + 9) };
    let leaps = year.div_euclid(4) - year.div_euclid(100) + year.div_euclid(400);
    year * 365 + leaps + (month * 153 + 2) / 5 + day - 1 - DAYS_TO_1970
}

/// The weekday of a day, from Sunday.
fn weekday_of(days: i64) -> i64 {
    const OF_1970: i64 = 4;
    (days + OF_1970).rem_euclid(7)
}
