//! What encode, start, list and hear are asked, with faults: each test behind a number is failed now and then, and several
//! at once, so that the order of the refusals is tried.

use super::{Call, Scale, FILL};
use crate::limits::{HEIGHT_MOST, MULTIPLICITY_MOST, WORKING_ROOM};
use crate::list::list;
use crate::random::Random;
use crate::request::Request;
use crate::sample;
use crate::setting::Setting;

/// A request with what more the jobs take, and the sizes of the buffers lent.
pub struct Asked {
    pub request: Request,
    pub t: u8,
    message: Vec<u8>,
    word: usize,
    rows: usize,
    room: usize,
    messages: usize,
}

impl Asked {
    /// No job refuses it but with 13. The buffers are sometimes longer than they need be.
    fn of(random: &mut Random, request: Request) -> Asked {
        let setting = request.setting();
        Asked {
            message: sample::symbols(random, request.p, setting.k),
            t: agreements(random, setting.n),
            word: setting.n + excess(random),
            rows: setting.rows_room() + excess(random),
            room: WORKING_ROOM + excess(random),
            messages: setting.messages_room() + excess(random),
            request,
        }
    }

    pub fn sound(random: &mut Random, scale: Scale) -> Asked {
        let request = scale.request(random);
        Asked::of(random, request)
    }

    pub fn faulty(random: &mut Random, scale: Scale) -> Asked {
        Asked::sound(random, scale).spoiled(random, scale)
    }

    /// For a list.
    pub fn near(random: &mut Random, scale: Scale) -> Asked {
        Asked::sound(random, scale).brought_near(random, scale)
    }

    /// For hear.
    pub fn heard(random: &mut Random, scale: Scale) -> Asked {
        let request = scale.heard(random);
        Asked::of(random, request).brought_near(random, scale)
    }

    /// With a fault, sometimes with two or three; some of them are none to one job or another.
    fn spoiled(mut self, random: &mut Random, scale: Scale) -> Asked {
        let setting = self.request.setting();
        for _ in 0..random.pick(&[1, 1, 1, 2, 3]) {
            let fault = random.below(scale.faults());
            self.spoil(random, &setting, fault);
        }
        self
    }

    /// Faulty once in three times; else t is mostly the least number above the weight, where lists are longest.
    fn brought_near(self, random: &mut Random, scale: Scale) -> Asked {
        if random.once_in(3) {
            return self.spoiled(random, scale);
        }
        if random.once_in(3) {
            return self;
        }
        let t = least_vouched(&self.request);
        Asked { t, ..self }
    }

    pub fn encode(self) -> Call {
        Call::Encode {
            p: self.request.p,
            points: self.request.points,
            message: self.message,
            word: self.word,
        }
    }

    pub fn start(self) -> Call {
        Call::Start {
            request: self.request,
            rows: self.rows,
        }
    }

    pub fn list(self) -> Call {
        Call::List {
            request: self.request,
            t: self.t,
            room: self.room,
            messages: self.messages,
        }
    }

    pub fn hear(self) -> Call {
        let Request {
            points, word, m, l, ..
        } = self.request;
        Call::Hear {
            points,
            word,
            m,
            l,
            t: self.t,
            room: self.room,
        }
    }

    fn spoil(&mut self, random: &mut Random, setting: &Setting, fault: usize) {
        match fault {
            0 => self.request.p = random.pick(&[0, 1, 2, 4, 8, 9, 15, 25, 27, 32, 33, 37, 255]),
            1 => self.resize(random.below(3)),
            // More points than symbols, so two are equal too, but 2 comes first.
            2 => self.resize(usize::from(self.request.p.saturating_add(1))),
            3 => self.spoil_word_length(random),
            4 => self.spoil_message_length(random, setting),
            5 => self.spoil_heights(random),
            6 => self.spoil_symbol(random),
            7 => self.spoil_points(random),
            8 => self.t = random.pick(&[0, setting.n as u8 + 1, 255]),
            9 => self.spoil_rooms(random, setting),
            _ => self.lengthen(random),
        }
    }

    /// Cut to one byte or to two, the length would be the same as before.
    fn lengthen(&mut self, random: &mut Random) {
        let more = random.pick(&[1 << 8, 1 << 16]);
        match random.below(3) {
            0 => self.resize(self.request.points.len() + more),
            1 => self.request.word.resize(self.request.word.len() + more, 0),
            _ => self.message.resize(self.message.len() + more, 0),
        }
    }

    fn resize(&mut self, n: usize) {
        self.request.points.resize(n, 0);
        self.request.word.resize(n, 0);
    }

    fn spoil_word_length(&mut self, random: &mut Random) {
        let length = self.request.word.len();
        let lengths = [0, length.saturating_sub(1), (length + 1).min(255)];
        self.request.word.resize(random.pick(&lengths), 0);
    }

    /// In hear k is fixed: there it takes fewer points.
    fn spoil_message_length(&mut self, random: &mut Random, setting: &Setting) {
        if random.once_in(2) {
            return self.resize(random.between(3, setting.k.max(3)));
        }
        self.request.k = random.pick(&[0, 1, setting.n as u8, 255]);
        let length = random.pick(&[0, 1, setting.n, setting.n + 1]);
        self.message.resize(length, 1);
    }

    fn spoil_heights(&mut self, random: &mut Random) {
        let Request { m, l, .. } = self.request;
        let ms = [0, MULTIPLICITY_MOST + 1, 255].map(|m| (m, l));
        let ls = [m.wrapping_sub(1), HEIGHT_MOST + 1, 255].map(|l| (m, l));
        let pairs = [ms, ls].concat();
        (self.request.m, self.request.l) = random.pick(&pairs);
    }

    fn spoil_symbol(&mut self, random: &mut Random) {
        let p = self.request.p;
        let any = random.between(p.into(), 255) as u8;
        let symbol = random.pick(&[p, any, 255]);
        let bytes = match random.below(3) {
            0 => &mut self.request.points,
            1 => &mut self.request.word,
            _ => &mut self.message,
        };
        if !bytes.is_empty() {
            let place = random.below(bytes.len());
            bytes[place] = symbol;
        }
    }

    fn spoil_points(&mut self, random: &mut Random) {
        let points = &mut self.request.points;
        if points.len() >= 2 {
            let place = random.between(1, points.len() - 1);
            points[place] = points[random.below(place)];
        }
    }

    fn spoil_rooms(&mut self, random: &mut Random, setting: &Setting) {
        let mut shorter = |needed: usize| random.pick(&[needed - 1, needed - 1, 0, needed]);
        self.word = shorter(setting.n);
        self.rows = shorter(setting.rows_room());
        self.room = shorter(WORKING_ROOM);
        self.messages = shorter(setting.messages_room());
    }
}

/// Bytes that a buffer is longer than it need be.
pub fn excess(random: &mut Random) -> usize {
    if random.once_in(4) {
        random.below(9)
    } else {
        0
    }
}

/// Any t in its range, the greatest more often than others.
fn agreements(random: &mut Random, n: usize) -> u8 {
    let any = random.between(1, n);
    random.pick(&[any, any, any, n]) as u8
}

/// The least t that is not refused with 13, or else n.
fn least_vouched(request: &Request) -> u8 {
    let n = request.points.len() as u8;
    let mut room = vec![FILL; WORKING_ROOM];
    let mut messages = vec![FILL; request.setting().messages_room()];
    match list(request, n, &mut room, &mut messages) {
        (0, _, _, weight) => weight / request.m + 1,
        _ => n,
    }
}
