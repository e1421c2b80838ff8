//! The switch as a fold: what was accepted by its position, what waits by circuit and level, what was drawn by circuit.

use std::collections::{HashMap, VecDeque};
use std::hint::black_box;

use crate::day::{CIRCUITS, Message, frame, message};
use crate::sha256::Sha256;

/// Among how many accepted bulletins a duplicate is looked for.
const WINDOW: usize = 1000;

/// How many of its last draws can be asked for on a circuit.
const KEPT: usize = 1000;

/// The levels, the highest first.
const LEVELS: [u8; 4] = [1, 2, 3, 4];

/// The bytes of a record of the journal beside the body: an accepted bulletin's and a draw's, each with its seal and its gate.
const ACCEPT_RECORD: usize = 49;
const DRAW_RECORD: usize = 56;

/// An empty journal.
const EMPTY_JOURNAL: usize = 41;

#[derive(Default)]
struct Switch {
    bodies: HashMap<usize, Vec<u8>>,
    recent: HashMap<Vec<u8>, usize>,
    waiting: HashMap<(u32, u8), VecDeque<usize>>,
    drawn: HashMap<u32, Vec<usize>>,
    owed: HashMap<u32, VecDeque<usize>>,
    accepted: usize,
    duplicates: usize,
    requests: usize,
    draws: usize,
    resends: usize,
    bytes: usize,
    journal: usize,
    digest: Sha256,
    seal: Option<[u8; 32]>,
}

impl Switch {
    fn hear(&mut self, from: u32, message: Message) {
        match message {
            Message::Request => self.ask(from),
            Message::Bulletin { level, ii, body } => self.accept(from, level, ii, body),
        }
    }

    /// The last draw with the number 001, where it is kept, is owed once more.
    fn ask(&mut self, circuit: u32) {
        self.requests += 1;
        let draws = self.drawn.get(&circuit).map_or(0, Vec::len);
        let found = (draws.saturating_sub(KEPT)..draws)
            .rev()
            .find(|index| number_of(*index) == 1);
        self.owed.entry(circuit).or_default().extend(found);
    }

    fn accept(&mut self, from: u32, level: u8, ii: u32, body: Vec<u8>) {
        let earlier = self.recent.get(&body);
        if earlier.is_some_and(|position| position + WINDOW >= self.accepted) {
            self.duplicates += 1;
            return;
        }
        let mut named = vec![ii % CIRCUITS, (ii + 3) % CIRCUITS];
        named.retain(|circuit| *circuit != from);
        for circuit in named {
            let queue = self.waiting.entry((circuit, level)).or_default();
            queue.push_back(self.accepted);
        }
        self.journal += ACCEPT_RECORD + body.len();
        let position = (self.accepted as u64).to_be_bytes();
        let length = (body.len() as u32).to_be_bytes();
        self.seal(&[&[b'A', from as u8, b'A', 0], &position, &length, &body]);
        self.recent.insert(body.clone(), self.accepted);
        self.bodies.insert(self.accepted, body);
        self.accepted += 1;
    }

    /// What a take gives: what is owed before what is new, and of that the highest level, what was accepted first.
    fn take(&mut self, circuit: u32) -> bool {
        let owed = self.owed.entry(circuit).or_default().pop_front();
        if let Some(index) = owed {
            self.resends += 1;
            self.say(circuit, index);
            return true;
        }
        let next = LEVELS.iter().find_map(|level| {
            let queue = self.waiting.get_mut(&(circuit, *level))?;
            queue.pop_front()
        });
        let Some(position) = next else {
            return false;
        };
        self.draws += 1;
        self.journal += DRAW_RECORD;
        let drawn = self.drawn.entry(circuit).or_default();
        drawn.push(position);
        let index = drawn.len() - 1;
        let places = [(position as u64).to_be_bytes(), (index as u64).to_be_bytes()];
        self.seal(&[&[b'D', circuit as u8, 0, 0, 0, 0, 0], &places[0], &places[1]]);
        self.say(circuit, index);
        true
    }

    /// The seal of a record: the digest of the seal before it and its bytes. Where none is kept, none is made.
    fn seal(&mut self, record: &[&[u8]]) {
        if let Some(before) = self.seal {
            let mut digest = Sha256::default();
            digest.update(&before);
            for part in record {
                digest.update(part);
            }
            self.seal = Some(digest.bytes());
        }
    }

    fn say(&mut self, circuit: u32, index: usize) {
        let position = self.drawn[&circuit][index];
        let frame = frame(number_of(index), &self.bodies[&position]);
        self.bytes += frame.len();
        self.digest.update(&frame);
    }
}

/// The number of a draw: 001 is the first, and 000 comes behind 999.
fn number_of(index: usize) -> u32 {
    ((index + 1) % 1000) as u32
}

/// The seal before the first record of an empty journal: the digest of its header, the magic and the mark of the directory.
fn first_seal() -> [u8; 32] {
    let mut digest = Sha256::default();
    digest.update(b"GTSJ0002");
    digest.update(&[0; 32]);
    digest.bytes()
}

/// The summary of a day of so many messages, made with the seals of the journal's records or without them.
pub fn summary(count: u32, has_seals: bool) -> String {
    let mut switch = Switch {
        journal: EMPTY_JOURNAL,
        seal: has_seals.then(first_seal),
        ..Switch::default()
    };
    for i in 0..count {
        switch.hear(i % CIRCUITS, message(i));
        switch.take(3 * i % CIRCUITS);
    }
    for circuit in 0..CIRCUITS {
        while switch.take(circuit) {}
    }
    black_box(switch.seal);
    let digest = switch.digest.hexadecimal();
    format!(
        "messages {count}\naccepted {}\nduplicates {}\nrequests {}\ndraws {}\nresends {}\nbytes {}\njournal {}\n\
         digest {digest}\nend\n",
        switch.accepted, switch.duplicates, switch.requests, switch.draws, switch.resends, switch.bytes, switch.journal,
    )
}
