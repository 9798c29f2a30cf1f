//! Sessions: a start, turns and finish on the rows of one board, some of it disturbed; encode, list, the program and the
//! jobs on departures come in between.

use super::faults::{excess, Asked};
use super::garbage::{damaged, dependent, with_few_altered, wrong_note};
use super::{departures, text, Answer, Board, Call, Scale, Second};
use crate::limits::ALLOWANCE_MOST;
use crate::random::Random;
use crate::setting::{Note, Setting};
use std::collections::VecDeque;

pub struct Case {
    pub call: Call,
    pub answer: Answer,
}

/// The cases of so many sessions. In each of them every job that the scale has is called at least once, start, turn and
/// finish on a word that start does not refuse.
pub struct Cases {
    random: Random,
    scale: Scale,
    sessions: usize,
    board: Board<Second>,
    made: VecDeque<Case>,
}

impl Iterator for Cases {
    type Item = Case;

    fn next(&mut self) -> Option<Case> {
        while self.made.is_empty() && self.sessions > 0 {
            self.sessions -= 1;
            self.session();
        }
        self.made.pop_front()
    }
}

impl Cases {
    pub fn new(seed: u64, sessions: usize, scale: Scale) -> Cases {
        Cases {
            random: Random::new(seed),
            scale,
            sessions,
            board: Board::new(Second),
            made: VecDeque::new(),
        }
    }

    fn make(&mut self, call: Call) {
        let answer = self.board.take(&call);
        self.made.push_back(Case { call, answer });
    }

    fn session(&mut self) {
        let mut between = self.calls_between();
        if self.random.once_in(3) {
            self.refused_start();
        }
        let setting = self.start();
        for _ in 0..self.random.between(1, 5) {
            self.step(&setting);
            if self.random.once_in(2) {
                between.pop().into_iter().for_each(|call| self.make(call));
            }
        }
        self.end(&setting);
        between.into_iter().for_each(|call| self.make(call));
    }

    /// One call or more of each job that does not touch what the board keeps.
    fn calls_between(&mut self) -> Vec<Call> {
        let (random, scale) = (&mut self.random, self.scale);
        let mut calls = vec![
            Asked::sound(random, scale).encode(),
            Asked::near(random, scale).list(),
        ];
        if scale.has_departures() {
            calls.extend(on_departures(random, scale));
        }
        calls.push(text::program(random, scale));
        let faulty = Asked::faulty(random, scale);
        match random.below(3) {
            0 => calls.push(faulty.encode()),
            1 => calls.push(faulty.list()),
            _ => {}
        }
        random.shuffle(&mut calls);
        calls
    }

    /// The kept note is all zeros then, and the rows are full of `FILL`.
    fn refused_start(&mut self) {
        let asked = Asked::faulty(&mut self.random, self.scale);
        self.make(asked.start());
        if self.random.once_in(3) {
            self.any_turn(None, 16);
        }
    }

    fn start(&mut self) -> Setting {
        let asked = Asked::sound(&mut self.random, self.scale);
        let setting = asked.request.setting();
        self.make(asked.start());
        setting
    }

    fn step(&mut self, setting: &Setting) {
        match self.random.below(12) {
            0 => self.with_wrong_note(setting),
            1 => self.with_short_rows(setting),
            2 => self.with_damaged_rows(setting),
            3 | 4 => self.with_dependent_rows(setting),
            5 => self.finish(setting, None),
            _ => self.turn(setting, None),
        }
    }

    /// Mostly the work is done and finished, else perhaps not; some finish once more, on damaged rows.
    fn end(&mut self, setting: &Setting) {
        let allowance = if self.random.once_in(5) {
            3
        } else {
            ALLOWANCE_MOST
        };
        self.turn_with(setting, allowance);
        self.finish(setting, None);
        if self.random.once_in(4) {
            self.with_damaged_rows(setting);
        }
    }

    fn turn(&mut self, setting: &Setting, note: Option<Note>) {
        let rows = setting.rows_room() + excess(&mut self.random);
        self.any_turn(note, rows);
    }

    fn any_turn(&mut self, note: Option<Note>, rows: usize) {
        let bound = match self.random.below(5) {
            0 => usize::from(ALLOWANCE_MOST) + 1,
            1 => 200,
            2 => 40,
            _ => 8,
        };
        let in_place = self.random.once_in(2);
        let allowance = self.random.below(bound) as u16;
        self.make(Call::Turn {
            in_place,
            note,
            rows,
            allowance,
        });
    }

    fn turn_with(&mut self, setting: &Setting, allowance: u16) {
        let in_place = self.random.once_in(2);
        self.make(Call::Turn {
            in_place,
            note: None,
            rows: setting.rows_room(),
            allowance,
        });
    }

    fn finish(&mut self, setting: &Setting, note: Option<Note>) {
        let rows = setting.rows_room() + excess(&mut self.random);
        let needed = setting.curve_room();
        let curve = match self.random.below(24) {
            0 => needed - 1,
            1 => 0,
            _ => needed + excess(&mut self.random),
        };
        self.make(Call::Finish { note, rows, curve });
    }

    /// The kept note is handed in again afterwards, so that the work can go on.
    fn with_wrong_note(&mut self, setting: &Setting) {
        let right = self.board.note();
        let wrong = wrong_note(&mut self.random, right);
        if self.random.once_in(2) {
            self.finish(setting, Some(wrong));
        } else {
            self.turn(setting, Some(wrong));
            self.turn(setting, Some(right));
        }
    }

    fn with_short_rows(&mut self, setting: &Setting) {
        let short = setting.rows_room() - 1;
        let rows = self.random.pick(&[short, short, 0]);
        if self.random.once_in(2) {
            self.any_turn(None, rows);
        } else {
            let curve = setting.curve_room();
            self.make(Call::Finish {
                note: None,
                rows,
                curve,
            });
        }
    }

    fn with_damaged_rows(&mut self, setting: &Setting) {
        let before = self.rows(setting);
        let note = self.board.note();
        let damaged = damaged(&mut self.random, setting, note, &before);
        if !self.write(&damaged) {
            let altered = with_few_altered(&mut self.random, setting, &before);
            self.write(&altered);
        }
        if self.random.once_in(2) {
            self.finish(setting, None);
        } else {
            self.turn(setting, None);
        }
        self.perhaps_repair(&before);
    }

    fn with_dependent_rows(&mut self, setting: &Setting) {
        // With two rows below r an update can be made before the one that is refused.
        if self.board.note().r < 2 {
            self.turn_with(setting, 12);
        }
        let before = self.rows(setting);
        let note = self.board.note();
        let dependent = dependent(&mut self.random, setting, note, &before);
        let written = dependent.is_some_and(|rows| self.write(&rows));
        let allowance = self.random.pick(&[1, ALLOWANCE_MOST, ALLOWANCE_MOST]);
        self.turn_with(setting, allowance);
        if written {
            self.perhaps_repair(&before);
        }
    }

    fn rows(&self, setting: &Setting) -> Vec<u8> {
        self.board.rows()[..setting.rows_room()].to_vec()
    }

    /// Rows that were not repaired are what the next calls are given.
    fn perhaps_repair(&mut self, before: &[u8]) {
        if self.random.once_in(2) {
            self.write(before);
        }
    }

    /// Writes the bytes that differ, unless they are too many.
    fn write(&mut self, wanted: &[u8]) -> bool {
        let places = self.board.rows().iter().zip(wanted).enumerate();
        let changes: Vec<Call> = places
            .filter(|(_, (kept, byte))| kept != byte)
            .map(|(place, (_, &byte))| Call::Change { place, byte })
            .collect();
        let few = changes.len() <= self.scale.most_changes();
        if few {
            changes.into_iter().for_each(|call| self.make(call));
        }
        few
    }
}

/// One call of each job on departures.
fn on_departures(random: &mut Random, scale: Scale) -> [Call; 4] {
    [
        departures::write(random),
        departures::read(random, scale),
        departures::show(random),
        Asked::heard(random, scale).hear(),
    ]
}
