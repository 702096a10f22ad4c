//! The table of works: which registrations, of which submitters, are of which work.

use crate::cwr::{Map, SHORT, key, name, text_of};
use crate::rows::{Fault, Field, MOST, Rows};
use crate::submitters::{MOST_ROWS, Submitters};
use std::collections::HashMap;

/// The longest name of a work.
const LONGEST: usize = 64;

pub struct Works {
    /// Where each work stands among all of them.
    pub places: HashMap<Vec<u8>, u32>,
    /// The work of each row.
    pub rows: Vec<u32>,
    /// Of each submitter, the row of each submitter work number, by its key.
    pub numbers: Vec<Map>,
}

/// Whether a field is the name of a work, as usage lines have it.
pub fn is_work(field: &[u8]) -> bool {
    (1..=LONGEST).contains(&field.len()) && field.iter().all(|b| (b' '..=b'~').contains(b))
}

impl Works {
    pub fn read(bytes: &mut [u8], submitters: &Submitters) -> Result<Works, Fault> {
        let mut rows = Rows::new(bytes);
        if !rows.header(&["work", "submitter", "number", "title"]) {
            return Err(Fault(1, Some(0)));
        }
        let mut works = Works {
            places: HashMap::new(),
            rows: Vec::new(),
            numbers: submitters.iter().map(|_| Map::default()).collect(),
        };
        let mut f = [Field::default(); MOST];
        while let Some(count) = rows.next(&mut f) {
            let row = works.rows.len() as u32;
            let at = |n| Fault(n, Some(u64::from(row) + 1));
            if u64::from(row) == MOST_ROWS {
                return Err(Fault(6, None));
            }
            if count != 4 {
                return Err(at(1));
            }
            let work = rows.get(f[0]);
            if !is_work(work) {
                return Err(at(2));
            }
            let submitter = submitters.place(rows.get(f[1])).ok_or(at(3))?;
            let number = name(rows.get(f[2])).filter(|number| number.len() <= SHORT);
            let number = key(number.ok_or(at(4))?);
            if works.numbers[submitter].insert(number, row).is_some() {
                return Err(at(5));
            }
            let place = works.place(work);
            works.rows.push(place);
        }
        Ok(works)
    }

    /// Where a work stands, which is behind the others where it has no row yet.
    fn place(&mut self, work: &[u8]) -> u32 {
        let fresh = self.places.len() as u32;
        match self.places.get(work) {
            Some(&place) => place,
            None => {
                self.places.insert(work.to_vec(), fresh);
                fresh
            }
        }
    }

    /// The names of all works, by their places.
    pub fn names(&self) -> Vec<&[u8]> {
        let mut names: Vec<&[u8]> = vec![&[]; self.places.len()];
        for (work, &place) in &self.places {
            names[place as usize] = work;
        }
        names
    }

    /// The rows of a work, in the order of the table.
    pub fn rows_of(&self, work: &[u8]) -> Vec<usize> {
        let place = self.places.get(work);
        let rows = self.rows.iter().enumerate();
        rows.filter(|(_, of)| place == Some(*of))
            .map(|(row, _)| row)
            .collect()
    }

    /// Of each row, the place of the submitter, and the submitter work number.
    pub fn registrations(&self) -> Vec<(usize, Vec<u8>)> {
        let mut all = vec![(0, Vec::new()); self.rows.len()];
        for (submitter, numbers) in self.numbers.iter().enumerate() {
            for (&number, &row) in numbers {
                all[row as usize] = (submitter, text_of(number));
            }
        }
        all
    }

    /// The rows, those of a work one after the other and in the order of the table.
    pub fn by_work(&self) -> Vec<u32> {
        let mut rows: Vec<u32> = (0..self.rows.len() as u32).collect();
        rows.sort_by_key(|&row| self.rows[row as usize]);
        rows
    }
}
