//! Books that a crew cannot tell apart: its live orders have the same serials and circuits in all of them, and the same colours are held on
//! the same links, but by whom, by how many circuits and in which state is each book's own.
use crate::calls::{History, CONFIRM, GRANT, REMOVE};
use crate::reference::books::{Asked, NaiveBook, DESK};
use crate::reference::Random;

/// Some links of the ring in a row, over the seam where they pass it, in one colour.
#[derive(Clone, Copy)]
struct Stretch {
    first: u16,
    count: u16,
    colour: u16,
}

impl Stretch {
    /// The grant of a circuit along it, which leaves at least one link of the ring.
    fn asked(self, n: u16, crew: u16) -> Asked {
        let seam = self.first + self.count >= n;
        let end = (self.first + self.count) % n;
        [self.first, end, seam as u16, self.colour, crew]
    }

    /// The stretch cut into pieces that circuits can go along.
    fn cut(self, random: &mut Random, n: u16) -> Vec<Stretch> {
        let (mut pieces, mut cut) = (Vec::new(), 0);
        while cut < self.count {
            let count = 1 + random.below((self.count - cut).min(n - 1) as u64) as u16;
            let first = (self.first + cut) % n;
            pieces.push(Stretch {
                first,
                count,
                ..self
            });
            cut += count;
        }
        pieces
    }
}

/// What a crew may see of a book, and what is held beside its own orders.
pub struct Scene {
    pub n: u16,
    pub w: u16,
    pub crew: u16,
    /// The live orders of the crew, by rising serial.
    own: Vec<(u16, Stretch)>,
    /// What is held by others, or by pending orders of the crew.
    held: Vec<Stretch>,
}

impl Scene {
    /// A scene on n nodes and w colours: each colour's links are cut into stretches that are free, the crew's or others'.
    pub fn draw(random: &mut Random, n: u16, w: u16) -> Scene {
        let crew = match random.below(4) {
            0 => 1,
            1 => 999,
            _ => 1 + random.below(999) as u16,
        };
        let (mut own, mut held) = (Vec::new(), Vec::new());
        for colour in 0..w {
            let first = random.below(n as u64) as u16;
            let whole = Stretch {
                first,
                count: n,
                colour,
            };
            for stretch in whole.cut(random, n) {
                match random.below(8) {
                    0 => {}
                    1 | 2 => own.push(stretch),
                    _ => held.push(stretch),
                }
            }
        }
        let own = with_serials(random, own);
        Scene {
            n,
            w,
            crew,
            own,
            held,
        }
    }

    /// A crew that is not the scene's.
    fn stranger(&self, random: &mut Random) -> u16 {
        let other = match random.below(4) {
            0 => DESK,
            1 => self.crew - 1,
            2 => self.crew % 999 + 1,
            _ => random.below(1000) as u16,
        };
        if other == self.crew {
            DESK
        } else {
            other
        }
    }

    /// Grants a piece: to a stranger, live or pending, or to the crew itself, pending.
    fn hold(&self, random: &mut Random, history: &mut History, piece: Stretch) {
        let state = random.below(4);
        let crew = match state {
            0 => self.crew,
            _ => self.stranger(random),
        };
        let serial = grant(history, piece.asked(self.n, crew));
        if state < 2 {
            history.call([REMOVE, serial, 0, 0, 0, 0]).unwrap();
        }
    }

    /// Gives a serial away, to the crew or to another: the order, in a place that is free as yet, is removed and confirmed at once.
    fn pass(&self, random: &mut Random, history: &mut History, place: Stretch) {
        let crew = match random.below(3) {
            0 => self.crew,
            _ => self.stranger(random),
        };
        let serial = grant(history, place.asked(self.n, crew));
        history.call([REMOVE, serial, 0, 0, 0, 0]).unwrap();
        history.call([CONFIRM, serial, 0, 0, 0, 0]).unwrap();
    }

    /// The calls that make a book of the scene: its own orders get their serials, and other orders come in before, between and behind them.
    pub fn book(&self, random: &mut Random) -> History {
        let mut history = History::new(NaiveBook::open(self.n, self.w).unwrap());
        let mut pieces: Vec<Stretch> = Vec::new();
        for stretch in &self.held {
            pieces.extend(stretch.cut(random, self.n));
        }
        shuffle(random, &mut pieces);
        for &(serial, stretch) in &self.own {
            while history.book.grants + 1 < serial {
                match pieces.pop() {
                    Some(piece) if random.below(4) > 0 => self.hold(random, &mut history, piece),
                    piece => {
                        pieces.extend(piece);
                        self.pass(random, &mut history, stretch);
                    }
                }
            }
            grant(&mut history, stretch.asked(self.n, self.crew));
        }
        for piece in pieces {
            if random.below(8) == 0 {
                self.pass(random, &mut history, piece);
            }
            self.hold(random, &mut history, piece);
        }
        history
    }
}

/// A grant that the book makes; gives its serial.
fn grant(history: &mut History, [x, y, way, colour, crew]: Asked) -> u16 {
    history.call([GRANT, x, y, way, colour, crew]).unwrap()[0]
}

/// Puts them in any order.
fn shuffle<T>(random: &mut Random, all: &mut [T]) {
    for i in (1..all.len()).rev() {
        all.swap(i, random.below(i as u64 + 1) as usize);
    }
}

/// Rising serials for the stretches in any order, with gaps between them.
fn with_serials(random: &mut Random, mut all: Vec<Stretch>) -> Vec<(u16, Stretch)> {
    shuffle(random, &mut all);
    let mut serial = 0;
    let mut next = |stretch| {
        serial += 1 + random.below(5) as u16;
        (serial, stretch)
    };
    all.into_iter().map(&mut next).collect()
}
