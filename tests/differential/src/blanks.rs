//! What reads of blank-padded amounts have reached, counted: what stands behind the spaces, who reads
//! it, where it begins, and what is 22 or 20 all the same.

use crate::decode::{bad_character, is_written, spaces_in_front, Reference, Sound};
use crate::draft::code;
use crate::ways::Ways;

/// The ways, in words.
const WAYS: &[&str] = &[
    "spaces before digits",
    "spaces before digits and a sign letter",
    "spaces before a sign letter alone",
    "spaces alone",
    "18 spaces",
    "moved to a decimal",
    "moved to text",
    "by a formatted move",
    "by INCR or DECR",
    "spaces alone by INCR or DECR",
    "by a branch on zero",
    "by a computed GOTO",
    "by a FOR",
    "inside an expression",
    "begun behind a space",
    "begun behind a digit",
    "over two elements",
    "outside its field",
    "written behind a space",
    "inside the fence",
    "22 for a space between digits",
    "22 for a space at the end",
    "22 for spaces in front and behind a digit",
    "22 for a tab in front",
    "22 for a tab behind spaces",
    "22 for a NUL in front",
    "22 for a NUL behind spaces",
    "22 for a plus in front",
    "22 for a minus behind spaces",
    "20 for spaces alone",
    "20 before 22",
];

/// The most characters of a decimal.
const DIGITS_MOST: usize = 18;

/// Counts of what reads of blank-padded amounts have reached.
#[derive(Clone)]
pub struct Blanks {
    ways: Ways,
}

impl Default for Blanks {
    fn default() -> Blanks {
        Blanks {
            ways: Ways::of(WAYS),
        }
    }
}

impl Blanks {
    /// Adds what another thread has counted.
    pub fn add(&mut self, other: &Blanks) {
        self.ways.add(&other.ways);
    }

    /// Each way with how often it was reached.
    pub fn reached(&self) -> impl Iterator<Item = (&str, u64)> {
        self.ways.reached()
    }

    /// Counts a run inside the fence over valid data, if an amount there begins with a space.
    pub fn fenced(&mut self, unit: &Sound, data: &[u8]) {
        self.ways.count_if(unit.is_padded(data), "inside the fence");
    }

    /// Counts statement `i`, which was completed over this data. Where the bounds of a reference are
    /// no literals, what it named is not looked for.
    pub fn completed(&mut self, unit: &Sound, i: usize, data: &[u8]) {
        for read in unit.reads(i) {
            let Some(span) = read.span.clone() else {
                continue;
            };
            let characters = &data[span];
            if characters[0] == b' ' {
                self.figures(characters);
                self.reader(unit, i, &read, characters);
                self.begin(&read, data);
            }
        }
        self.written(unit, i, data);
    }

    /// What stands behind the spaces.
    fn figures(&mut self, characters: &[u8]) {
        let spaces = spaces_in_front(characters);
        self.ways.count_if(spaces == DIGITS_MOST, "18 spaces");
        self.ways.count(match characters[spaces..] {
            [] => "spaces alone",
            [b'p'..=b'y'] => "spaces before a sign letter alone",
            [.., b'p'..=b'y'] => "spaces before digits and a sign letter",
            _ => "spaces before digits",
        });
    }

    /// Who reads it.
    fn reader(&mut self, unit: &Sound, i: usize, read: &Reference, characters: &[u8]) {
        let statement = unit.statement(i);
        let is_blank = spaces_in_front(characters) == characters.len();
        let is_decimal = |place: Reference| place.field.is_decimal();
        let way = match statement.code {
            _ if !read.is_last => "inside an expression",
            code::SET if unit.place(statement.a).is_some_and(is_decimal) => "moved to a decimal",
            code::SET => "moved to text",
            code::FORMAT => "by a formatted move",
            code::GOTO_IF_ZERO => "by a branch on zero",
            code::COMPUTED_GOTO => "by a computed GOTO",
            code::FOR => "by a FOR",
            _ => {
                self.ways.count_if(is_blank, "spaces alone by INCR or DECR");
                "by INCR or DECR"
            }
        };
        self.ways.count(way);
    }

    /// Where it begins.
    fn begin(&mut self, read: &Reference, data: &[u8]) {
        let (field, Some(span)) = (&read.field, &read.span) else {
            return;
        };
        if span.start < field.start() || field.end() < span.end {
            return self.ways.count("outside its field");
        }
        let element = |at: usize| (at - field.start()) / field.size();
        self.ways.count_if(
            element(span.start) != element(span.end - 1),
            "over two elements",
        );
        if field.is_inside_element(span.start) {
            let before = data[span.start - 1];
            self.ways.count_if(before == b' ', "begun behind a space");
            self.ways
                .count_if(before.is_ascii_digit(), "begun behind a digit");
        }
    }

    /// Counts a part of a decimal that was written, with a space of the same element before it.
    fn written(&mut self, unit: &Sound, i: usize, data: &[u8]) {
        let statement = unit.statement(i);
        let place = is_written(statement.code).then(|| unit.place(statement.a));
        let Some(Reference {
            field,
            span: Some(span),
            ..
        }) = place.flatten().filter(|place| place.field.is_decimal())
        else {
            return;
        };
        let is_behind = field.is_inside_element(span.start) && data[span.start - 1] == b' ';
        self.ways.count_if(is_behind, "written behind a space");
    }

    /// Counts statement `i`, which has ended in a run error over this data, if it reads one decimal
    /// alone, and that gives the error.
    pub fn failed(&mut self, unit: &Sound, i: usize, stop: u64, data: &[u8]) {
        let [Reference {
            span: Some(span),
            is_last: true,
            ..
        }] = &unit.reads(i)[..]
        else {
            return;
        };
        let characters = &data[span.clone()];
        match stop {
            20 if characters.len() > DIGITS_MOST => self.too_long(characters),
            22 => self.bad_digit(characters),
            _ => {}
        }
    }

    /// A span of more than 18 characters.
    fn too_long(&mut self, characters: &[u8]) {
        let spaces = spaces_in_front(characters);
        let is_blank = spaces == characters.len();
        self.ways.count_if(is_blank, "20 for spaces alone");
        self.ways
            .count_if(bad_character(characters).is_some(), "20 before 22");
    }

    /// An invalid decimal.
    fn bad_digit(&mut self, characters: &[u8]) {
        let Some(at) = bad_character(characters) else {
            return;
        };
        let spaces = spaces_in_front(characters);
        let is_at_the_end = at + spaces_in_front(&characters[at..]) == characters.len();
        let way = match (characters[at], spaces) {
            (b' ', 0) if is_at_the_end => "22 for a space at the end",
            (b' ', 0) => "22 for a space between digits",
            (b' ', _) => "22 for spaces in front and behind a digit",
            _ if at > spaces => return,
            (b'\t', 0) => "22 for a tab in front",
            (b'\t', _) => "22 for a tab behind spaces",
            (0, 0) => "22 for a NUL in front",
            (0, _) => "22 for a NUL behind spaces",
            (b'+', 0) => "22 for a plus in front",
            (b'-', 1..) => "22 for a minus behind spaces",
            _ => return,
        };
        self.ways.count(way);
    }
}

#[cfg(test)]
mod tests {
    use super::*;
    use crate::draft::{Draft, Field, Statement, ALPHA, DECIMAL};

    /// One statement over an alpha of 2 bytes, a decimal of 3 and an array of two decimals of 10. At
    /// 0 stands the alpha, at 4 the decimal, at 8 its part (2,3), at 20 the array's part (1,19), at
    /// 32 a sum of the decimal and 1, and at 41 the array's part (4,12).
    fn draft(image: &[u8], code: u8, a: u16, b: u16) -> Draft {
        Draft {
            image: image.to_vec(),
            fields: vec![
                Field::new(ALPHA, 0, 2, 1),
                Field::new(DECIMAL, 2, 3, 1),
                Field::new(DECIMAL, 5, 10, 2),
            ],
            expressions: [
                &b"\x02\0\0\0\x02\0\x01\0"[..],
                b"\x01\0\0\x01\x01\0\x01\x01\x04\0\x01\0",
                b"\x01\0\x02\x01\x01\0\x02\x02\x04\0\x02\0",
                b"\x02\0\x01\x01\0\x02\x01\x10\0",
                b"\x01\0\x04\x01\x01\0\x05\x02\x04\0\x02\0",
            ]
            .concat(),
            literals: b"2319412".to_vec(),
            statements: vec![Statement::new(code, a, b, 0)],
        }
    }

    /// The ways that are counted of a statement over an image that ends in 20 zeros, or in what
    /// stands in their place.
    fn counted(front: &[u8], code: u8, a: u16, b: u16) -> Vec<String> {
        let mut image = front.to_vec();
        image.resize(25.max(front.len()), b'0');
        let draft = draft(&image, code, a, b);
        let unit = draft.unit();
        let sound = Sound::of(&unit);
        let mut data = image.clone();
        let outcome = second::run(&unit, &mut data, second::State::START, 1);
        let mut blanks = Blanks::default();
        match outcome.count {
            1 => blanks.completed(&sound, 0, &image),
            _ => blanks.failed(&sound, 0, outcome.stop.into(), &image),
        }
        blanks.ways.met()
    }

    #[test]
    fn a_read_is_counted_by_its_figures_and_its_reader() {
        let moved = |front| counted(front, code::SET, 0, 4);
        assert_eq!(moved(b"??  7"), ["spaces before digits", "moved to text"]);
        assert_eq!(
            moved(b"?? 7p"),
            ["spaces before digits and a sign letter", "moved to text"]
        );
        assert_eq!(
            moved(b"??  s"),
            ["spaces before a sign letter alone", "moved to text"]
        );
        assert_eq!(moved(b"??   "), ["spaces alone", "moved to text"]);
        assert_eq!(moved(b"  123"), [""; 0]);
        assert_eq!(
            counted(b"??   ", code::INCR, 4, 0),
            [
                "spaces alone",
                "by INCR or DECR",
                "spaces alone by INCR or DECR"
            ]
        );
        assert_eq!(
            counted(b"??  7", code::GOTO_IF_ZERO, 0, 32),
            ["spaces before digits", "inside an expression"]
        );
    }

    #[test]
    fn a_part_is_counted_by_where_it_begins() {
        let moved = |front| counted(front, code::SET, 0, 8);
        let figures = ["spaces before digits", "moved to text"];
        let behind = |way| [&figures[..], &[way]].concat();
        assert_eq!(moved(b"?? "), [""; 0]);
        assert_eq!(moved(b"??1 2"), behind("begun behind a digit"));
        assert_eq!(moved(b"??  2"), behind("begun behind a space"));
        assert_eq!(
            counted(b"??000000        7", code::GOTO_IF_ZERO, 0, 41),
            [
                "spaces before digits",
                "by a branch on zero",
                "begun behind a digit",
                "over two elements"
            ]
        );
        assert_eq!(
            counted(b"?? 12", code::CLEAR, 8, 0),
            ["written behind a space"]
        );
    }

    #[test]
    fn an_error_is_counted_by_its_character() {
        let failed = |front| counted(front, code::SET, 0, 4);
        assert_eq!(failed(b"??1 2"), ["22 for a space between digits"]);
        assert_eq!(failed(b"??1  "), ["22 for a space at the end"]);
        assert_eq!(
            failed(b"?? 1 "),
            ["22 for spaces in front and behind a digit"]
        );
        assert_eq!(failed(b"??\t01"), ["22 for a tab in front"]);
        assert_eq!(failed(b"?? \t1"), ["22 for a tab behind spaces"]);
        assert_eq!(failed(b"??\x0001"), ["22 for a NUL in front"]);
        assert_eq!(failed(b"??  \0"), ["22 for a NUL behind spaces"]);
        assert_eq!(failed(b"??+01"), ["22 for a plus in front"]);
        assert_eq!(failed(b"?? -1"), ["22 for a minus behind spaces"]);
        assert_eq!(failed(b"??0\t1"), [""; 0]);
        let blank = [&b"??000"[..], &[b' '; 20]].concat();
        assert_eq!(counted(&blank, code::SET, 0, 20), ["20 for spaces alone"]);
        assert_eq!(counted(b"??0000 ", code::SET, 0, 20), ["20 before 22"]);
    }
}
