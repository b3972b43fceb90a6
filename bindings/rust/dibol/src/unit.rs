//! A checked unit, and what can be asked of it.

use crate::breaches::Breaches;
use crate::fence::{Breach, Validity, Verdict};
use crate::ffi::{self, DIBOL_ROW_LEN};
use crate::field::{Field, Fields, Kind};
use crate::state::State;
use crate::stop::{Refusal, Stop};

/// A coded unit that has passed checks 1 to 5. It borrows the unit's bytes.
#[derive(Clone, Copy, Debug, PartialEq, Eq)]
pub struct Unit<'a> {
    bytes: &'a [u8],
    parts: Parts,
}

/// What a unit has of each part, and how many digits a decimal of it has at most.
#[derive(Clone, Copy, Debug, PartialEq, Eq, Hash)]
pub struct Parts {
    /// D, the length of the data.
    pub data: usize,
    /// F, the number of field entries.
    pub fields: usize,
    /// E, the length of the expressions.
    pub expressions: usize,
    /// P, the length of the literals.
    pub literals: usize,
    /// N, the number of statements.
    pub statements: usize,
    /// The most digits of a decimal.
    pub digits: usize,
}

/// How a run stopped.
#[derive(Clone, Copy, Debug, PartialEq, Eq)]
pub struct Outcome {
    /// Why it stopped. An error that was trapped does not stop a run: [`State::last_error`] tells.
    pub stop: Stop,
    /// The place that the stop names: the end, the statement of a run error, or the next statement.
    pub place: usize,
    /// The number of statements that this call completed.
    pub count: u64,
    /// The state to go on from; after a refusal, the one that was given.
    pub state: State,
}

impl<'a> Unit<'a> {
    /// Checks a unit by the rules 1 to 5 of document 01, in their order.
    pub fn check(bytes: &'a [u8]) -> Result<Unit<'a>, Refusal> {
        let mut answer = [0; 6];
        // SAFETY: both pointers are those of slices, lent for their lengths.
        let stop = unsafe {
            ffi::dibol_parts(
                bytes.as_ptr(),
                bytes.len(),
                answer.as_mut_ptr(),
                answer.len(),
            )
        };
        if Stop::from(stop) != Stop::End {
            return Err(refusal(bytes));
        }
        let [data, fields, expressions, literals, statements, digits] =
            answer.map(|number| number as usize);
        let parts = Parts {
            data,
            fields,
            expressions,
            literals,
            statements,
            digits,
        };
        Ok(Unit { bytes, parts })
    }

    /// The bytes that the unit was made from.
    pub fn bytes(&self) -> &'a [u8] {
        self.bytes
    }

    /// The data image. A data buffer has as many bytes, and mostly begins as a copy of them.
    pub fn image(&self) -> &'a [u8] {
        &self.bytes[..self.parts.data]
    }

    /// What the unit has of each part.
    pub fn parts(&self) -> Parts {
        self.parts
    }

    /// N, the number of statements.
    pub fn statements(&self) -> usize {
        self.parts.statements
    }

    /// The field entries, in their order.
    ///
    /// ```
    /// # let bytes = *b"41\x01\0\0\0\0\x02\0\x01\x02\0\0\0\
    /// #     \x03\0\0\0\0\0\0\0\x0B\0\0\0\0\0\0\0\0\x02\0\x01\0\x04\0\0\0\x02DB";
    /// use dibol::{Kind, Unit};
    /// let unit = Unit::check(&bytes)?;
    /// for field in unit.fields().filter(|field| field.kind == Kind::Decimal) {
    ///     assert_eq!(&unit.image()[field.bytes()], b"41");
    /// }
    /// # Ok::<(), dibol::Refusal>(())
    /// ```
    pub fn fields(&self) -> Fields<'a> {
        Fields::of(*self)
    }

    /// A field entry, counted from 0; none past the last.
    pub fn field(&self, field: usize) -> Option<Field> {
        let mut answer = [0; 5];
        // SAFETY: both pointers are those of slices, lent for their lengths.
        let found = unsafe {
            ffi::dibol_field(
                self.bytes.as_ptr(),
                self.bytes.len(),
                field,
                answer.as_mut_ptr(),
                answer.len(),
            )
        };
        let [kind, offset, size, count, strict] = answer;
        (found != 0).then_some(Field {
            kind: Kind::from(kind),
            offset: offset as usize,
            size: size as usize,
            count: count as usize,
            strict: strict != 0,
        })
    }

    /// Runs the unit over a data buffer, from a resume state and for at most `allowance` statements.
    ///
    /// The buffer must be as long as the image (6) and the state sound for this unit (7); a refused
    /// call changes nothing. A statement that stops the run with an error has changed nothing: the
    /// state stands at it. If the allowance is spent before the end, a further call with the state
    /// handed back and the same buffer goes on as if there had been no stop.
    ///
    /// A new run takes [`State::START`]: from a finished state nothing is run. An allowance is not a
    /// time, and each call checks the unit first; docs/HOST.md has figures.
    ///
    /// ```
    /// # let bytes = *b"41\x01\0\0\0\0\x02\0\x01\x02\0\0\0\
    /// #     \x03\0\0\0\0\0\0\0\x0B\0\0\0\0\0\0\0\0\x02\0\x01\0\x04\0\0\0\x02DB";
    /// use dibol::{State, Stop, Unit};
    ///
    /// let unit = Unit::check(&bytes)?;
    /// let mut data = unit.image().to_vec();
    /// let mut outcome = unit.run(&mut data, State::START, 1);
    /// while outcome.stop == Stop::Spent {
    ///     outcome = unit.run(&mut data, outcome.state, 1);
    /// }
    /// assert_eq!((outcome.stop, outcome.place), (Stop::End, 2));
    /// # Ok::<(), dibol::Refusal>(())
    /// ```
    pub fn run(&self, data: &mut [u8], mut state: State, allowance: u64) -> Outcome {
        let mut answer = [0; 3];
        let numbers = state.numbers_mut();
        // SAFETY: every pointer is that of a slice, lent for its length; those that are written are
        // borrowed mutably, so none overlaps another.
        let stop = unsafe {
            ffi::dibol_run(
                self.bytes.as_ptr(),
                self.bytes.len(),
                data.as_mut_ptr(),
                data.len(),
                numbers.as_mut_ptr(),
                numbers.len(),
                allowance,
                answer.as_mut_ptr(),
                answer.len(),
            )
        };
        Outcome {
            stop: Stop::from(stop),
            place: answer[1] as usize,
            count: answer[2],
            state,
        }
    }

    /// The fence check: yes if the unit cannot slip, over data whose decimals are all valid, as
    /// [`Unit::invalid`] says.
    ///
    /// ```
    /// # let bytes = *b"41\x01\0\0\0\0\x02\0\x01\x02\0\0\0\
    /// #     \x03\0\0\0\0\0\0\0\x0B\0\0\0\0\0\0\0\0\x02\0\x01\0\x04\0\0\0\x02DB";
    /// use dibol::{Unit, Verdict};
    /// assert_eq!(Unit::check(&bytes)?.fence(), Verdict::Yes);
    /// # Ok::<(), dibol::Refusal>(())
    /// ```
    pub fn fence(&self) -> Verdict {
        let mut answer = [0; 2];
        // SAFETY: both pointers are those of slices, lent for their lengths.
        let verdict = unsafe {
            ffi::dibol_fence(
                self.bytes.as_ptr(),
                self.bytes.len(),
                answer.as_mut_ptr(),
                answer.len(),
            )
        };
        let [statement, breach] = answer;
        match (verdict, Breach::from_number(breach)) {
            (0, _) => Verdict::Yes,
            (1, Some(breach)) => Verdict::No {
                statement: statement as usize,
                breach,
            },
            _ => unreachable!("a unit that has passed its check is not refused by the fence"),
        }
    }

    /// Whether the decimals of a data buffer are valid. A yes of the fence is for such data alone, so
    /// a host asks this of the data that a run is to start with.
    ///
    /// ```
    /// # let bytes = *b"41\x01\0\0\0\0\x02\0\x01\x02\0\0\0\
    /// #     \x03\0\0\0\0\0\0\0\x0B\0\0\0\0\0\0\0\0\x02\0\x01\0\x04\0\0\0\x02DB";
    /// use dibol::{Unit, Validity};
    /// let unit = Unit::check(&bytes)?;
    /// assert!(unit.invalid(unit.image()).is_all_valid());
    /// let (field, element, offset) = (0, 1, 0);
    /// assert_eq!(unit.invalid(b"4U"), Validity::Invalid { field, element, offset });
    /// # Ok::<(), dibol::Refusal>(())
    /// ```
    pub fn invalid(&self, data: &[u8]) -> Validity {
        let mut answer = [0; 4];
        // SAFETY: every pointer is that of a slice, lent for its length.
        let number = unsafe {
            ffi::dibol_invalid(
                self.bytes.as_ptr(),
                self.bytes.len(),
                data.as_ptr(),
                data.len(),
                answer.as_mut_ptr(),
                answer.len(),
            )
        };
        let [_, field, element, offset] = answer.map(|number| number as usize);
        match Stop::from(number) {
            Stop::End => Validity::AllValid,
            Stop::WrongSize => Validity::WrongSize,
            Stop::BadDigit => Validity::Invalid {
                field,
                element,
                offset,
            },
            _ => unreachable!("a unit that has passed its check is not refused"),
        }
    }

    /// The references that break a fence rule, each with its own rule, in the order of the statements
    /// and in each statement in the order in which a run works them out. There are none exactly where
    /// the fence says yes. They are asked for as they are taken, and `len` has their number.
    pub fn breaches(&self) -> Breaches<'a> {
        Breaches::of(*self)
    }

    /// Fills rows from a breach on, as many as there are, and gives the number of all breaches.
    pub(crate) fn breach_rows(&self, skip: usize, rows: &mut [[u64; DIBOL_ROW_LEN]]) -> usize {
        let numbers = rows.as_flattened_mut();
        // SAFETY: both pointers are those of slices, lent for their lengths.
        let count = unsafe {
            ffi::dibol_breaches(
                self.bytes.as_ptr(),
                self.bytes.len(),
                skip,
                numbers.as_mut_ptr(),
                numbers.len(),
            )
        };
        count as usize
    }

    /// The fence rule that a statement, counted from 0, breaks first. There is none for one that
    /// keeps the rules or is not there.
    pub fn breach(&self, statement: usize) -> Option<Breach> {
        // SAFETY: the pointer is that of a slice, lent for its length.
        let number = unsafe { ffi::dibol_breach(self.bytes.as_ptr(), self.bytes.len(), statement) };
        Breach::from_number(number)
    }

    /// The alpha literal of a statement, counted from 0: that stretch of the unit itself if the
    /// statement is a SET whose source is a lone alpha literal, and an empty stretch otherwise. A
    /// formatted move (statement 13) has none: a literal there is its mask, and no source.
    pub fn literal(&self, statement: usize) -> &'a [u8] {
        let mut answer = [0; 2];
        // SAFETY: both pointers are those of slices, lent for their lengths.
        unsafe {
            ffi::dibol_literal(
                self.bytes.as_ptr(),
                self.bytes.len(),
                statement,
                answer.as_mut_ptr(),
                answer.len(),
            )
        };
        let [offset, length] = answer.map(|number| number as usize);
        &self.bytes[offset..offset + length]
    }
}

/// Why a unit that is not sound is refused.
fn refusal(bytes: &[u8]) -> Refusal {
    let mut answer = [0; 2];
    // SAFETY: both pointers are those of slices, lent for their lengths.
    let stop = unsafe {
        ffi::dibol_check(
            bytes.as_ptr(),
            bytes.len(),
            answer.as_mut_ptr(),
            answer.len(),
        )
    };
    Refusal {
        stop: Stop::from(stop),
        place: answer[1] as usize,
    }
}
