//! The summary of a message's header.

use std::ops::Range;

use crate::date::seconds;
use crate::lines::cut_line;
use crate::output::Output;

#[derive(Clone, Copy)]
enum Field {
    Subject,
    From,
    MessageId,
    Date,
}

impl Field {
    const ALL: [Field; 4] = [Field::Subject, Field::From, Field::MessageId, Field::Date];

    /// The one field whose name may begin with a letter.
    fn beginning_with(letter: u8) -> Option<Field> {
        match letter.to_ascii_lowercase() {
            b's' => Some(Field::Subject),
            b'f' => Some(Field::From),
            b'm' => Some(Field::MessageId),
            b'd' => Some(Field::Date),
            _ => None,
        }
    }

    fn name(self) -> &'static [u8] {
        match self {
            Field::Subject => b"subject",
            Field::From => b"from",
            Field::MessageId => b"message-id",
            Field::Date => b"date",
        }
    }
}

/// The first field of each name that a summary shows.
#[derive(Default)]
pub struct Summary {
    /// The bodies of the fields, with those of their continuations, one after another.
    bodies: Vec<u8>,
    places: [Option<Range<usize>>; 4],
}

impl Summary {
    /// Prints the summary of a message. Its room is used again for the next one.
    pub fn print(&mut self, message: &[u8], output: &mut Output) {
        self.read(message);
        for field in Field::ALL {
            if let Some(value) = self.value(field) {
                output.text(field.name());
                output.text(b"=");
                output.escaped(value);
                output.text(b"\n");
            }
        }
        if let Some(seconds) = self.value(Field::Date).and_then(seconds) {
            output.text(if seconds < 0 { b"seconds=-" } else { b"seconds=" });
            output.number(seconds.unsigned_abs());
            output.text(b"\n");
        }
        output.text(b"end\n");
    }

    fn value(&self, field: Field) -> Option<&[u8]> {
        let place = self.places[field as usize].clone()?;
        Some(trimmed(&self.bodies[place]))
    }

    /// Reads the lines up to the first empty one.
    fn read(&mut self, message: &[u8]) {
        self.bodies.clear();
        self.places = Default::default();
        let mut open = None;
        let mut rest = message;
        while !rest.is_empty() {
            let line;
            (line, rest) = cut_line(rest);
            match line {
                [] => return,
                [b' ' | b'\t', ..] => self.continue_field(open, line),
                _ => open = self.begin_field(line),
            }
        }
    }

    /// A continuation of a field that is passed over is passed over too.
    fn continue_field(&mut self, open: Option<Field>, line: &[u8]) {
        if let Some(place) = open.and_then(|field| self.places[field as usize].as_mut()) {
            self.bodies.extend_from_slice(line);
            place.end = self.bodies.len();
        }
    }

    /// The field that a line begins, where it is the first of a name that is shown.
    fn begin_field(&mut self, line: &[u8]) -> Option<Field> {
        let field = Field::beginning_with(line[0])?;
        let name = line.get(..field.name().len())?;
        let after = &line[name.len()..];
        if !name.eq_ignore_ascii_case(field.name()) {
            return None;
        }
        let blanks = after.iter().take_while(|byte| is_blank(**byte)).count();
        let body = after[blanks..].strip_prefix(b":")?;
        let place = &mut self.places[field as usize];
        if place.is_some() {
            return None;
        }
        let start = self.bodies.len();
        self.bodies.extend_from_slice(body);
        *place = Some(start..self.bodies.len());
        Some(field)
    }
}

fn is_blank(byte: u8) -> bool {
    byte == b' ' || byte == b'\t'
}

/// A value without the spaces and tabs at its ends.
fn trimmed(value: &[u8]) -> &[u8] {
    let is_shown = |byte: &u8| !is_blank(*byte);
    match (value.iter().position(is_shown), value.iter().rposition(is_shown)) {
        (Some(first), Some(last)) => &value[first..=last],
        _ => &[],
    }
}
