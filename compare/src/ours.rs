//! What is held against the original's pool: the linked library, with the second reading of modules 8 and 9 beside it,
//! or that reading alone.

use crate::library;
use crate::pool::{words, Answer, Call, Limits, Pool};
use crate::template::{select, Asked};

/// The answer's number, and the selected slots.
pub type Selected = (u64, Vec<usize>);

/// An error tells where the library differs from the second reading.
pub trait Ours: Sized {
    /// A pool with so many slots and these limits, all of them in their ranges.
    fn made(slots: usize, limits: Limits) -> Self;

    fn call(&mut self, call: &Call) -> Result<Answer, String>;

    /// With room for so many slots.
    fn template(&self, asked: &Asked, room: usize) -> Result<Selected, String>;

    fn pool(&self) -> &Pool;
}

/// The second reading, without a table: reading and writing one at each call would cost most of the time.
pub struct Reading(Pool);

impl Ours for Reading {
    fn made(slots: usize, limits: Limits) -> Self {
        Reading(Pool::new(slots, limits).expect("numbers in their ranges"))
    }

    fn call(&mut self, call: &Call) -> Result<Answer, String> {
        Ok(self.0.answer(call))
    }

    fn template(&self, asked: &Asked, room: usize) -> Result<Selected, String> {
        Ok(read_template(Some(&self.0), asked, room))
    }

    fn pool(&self) -> &Pool {
        &self.0
    }
}

/// The linked library on a table of its own. After each call every word of the table is the reading's.
pub struct Library {
    table: Vec<u64>,
    reading: Reading,
    /// The table that the reading comes to.
    expected: Vec<u64>,
}

impl Ours for Library {
    fn made(slots: usize, limits: Limits) -> Self {
        // what stands there before does not matter
        let mut table = vec![0x5bad_5bad_5bad_5bad; words(slots)];
        let answer = library::perform(&mut table, &Call::Make(limits));
        assert_eq!(answer, (0, [0, 0]), "make with numbers in their ranges");
        let reading = Reading::made(slots, limits);
        let mut expected = vec![0; words(slots)];
        reading.0.write(&mut expected);
        assert!(table == expected, "the table that make leaves");
        Library {
            table,
            reading,
            expected,
        }
    }

    fn call(&mut self, call: &Call) -> Result<Answer, String> {
        let answer = library::perform(&mut self.table, call);
        let expected = self.reading.call(call)?;
        if expected.0 == 0 {
            self.reading.0.write(&mut self.expected);
        }
        if answer != expected {
            return Err(format!(
                "the library answers {answer:?}, the second reading {expected:?}, to {call:?}"
            ));
        }
        if self.table != self.expected {
            return Err(format!("another table in the library after {call:?}"));
        }
        Ok(answer)
    }

    fn template(&self, asked: &Asked, room: usize) -> Result<Selected, String> {
        let expected = self.reading.template(asked, room)?;
        check_template(&self.table, asked, room, &expected)?;
        match self.table == self.expected {
            true => Ok(expected),
            false => Err("another table in the library after a template".to_string()),
        }
    }

    fn pool(&self) -> &Pool {
        self.reading.pool()
    }
}

/// What the second reading answers on a table in which it finds this pool, or none.
pub fn read_template(found: Option<&Pool>, asked: &Asked, room: usize) -> Selected {
    match found.map_or(Err(12), |pool| select(pool, asked, room)) {
        Ok(slots) => (0, slots),
        Err(number) => (number, Vec::new()),
    }
}

/// Stands in a room before a call.
const UNTOUCHED: usize = usize::MAX;

/// Holds a template of the library, on any table, against what it should be: the answer, and all of the room.
pub fn check_template(
    table: &[u64],
    asked: &Asked,
    room: usize,
    expected: &Selected,
) -> Result<(), String> {
    let mut places = vec![UNTOUCHED; room];
    let (number, written) = library::template(table, asked, &mut places);
    let mut expected_places = expected.1.clone();
    expected_places.resize(room, UNTOUCHED);
    if (number, written) == (expected.0, expected.1.len()) && places == expected_places {
        return Ok(());
    }
    Err(format!(
        "the library answers a template with {number} and {written}, {places:?}, the second reading with {expected:?}"
    ))
}
