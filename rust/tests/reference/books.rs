//! A second book: a map from serials to circuits for each state of a record, one to the crews, with the rules' refusals in their order.
use std::collections::BTreeMap;

use ring_planner::{Circuit, Holder, Way};

/// The crew that reads everything.
pub const DESK: u16 = 0;

/// A grant that is asked for, in any numbers: x, y, way, colour and crew.
pub type Asked = [u16; 5];

#[derive(Clone, Debug, PartialEq, Eq)]
pub struct NaiveBook {
    pub n: u16,
    pub w: u16,
    pub grants: u16,
    /// The orders that were granted and not removed.
    pub live: BTreeMap<u16, Circuit>,
    /// The orders that were removed and whose pull is not confirmed: they keep their place and hold their colour.
    pub pending: BTreeMap<u16, Circuit>,
    /// The crews of all orders, live or pending, that are not the desk's.
    pub crews: BTreeMap<u16, u16>,
}

/// What a preview says: the serials, and the line that would be turned down with the number of its refusal.
pub type Previewed = (Vec<u16>, Option<(usize, u16)>);

/// Whether the circuit's way uses a link.
pub fn uses(circuit: &Circuit, link: u16) -> bool {
    let plain = circuit.a <= link && link < circuit.b;
    match circuit.way {
        Way::Plain => plain,
        Way::Seam => !plain,
    }
}

/// Whether two circuits on n nodes hold one colour on one link.
pub fn conflict(n: u16, first: &Circuit, second: &Circuit) -> bool {
    first.colour == second.colour && (0..n).any(|link| uses(first, link) && uses(second, link))
}

impl NaiveBook {
    pub fn open(n: u16, w: u16) -> Result<Self, u16> {
        if !(3..=256).contains(&n) {
            return Err(1);
        }
        if !(1..=128).contains(&w) {
            return Err(2);
        }
        Ok(NaiveBook {
            n,
            w,
            grants: 0,
            live: BTreeMap::new(),
            pending: BTreeMap::new(),
            crews: BTreeMap::new(),
        })
    }

    /// The records of both states.
    pub fn records(&self) -> impl Iterator<Item = (&u16, &Circuit)> {
        self.live.iter().chain(&self.pending)
    }

    /// The crew of an order that has a record.
    pub fn crew_of(&self, serial: u16) -> u16 {
        self.crews.get(&serial).copied().unwrap_or(DESK)
    }

    /// Whether the old form has room for every record: none is pending, and all are the desk's.
    pub fn has_old_form(&self) -> bool {
        self.pending.is_empty() && self.crews.is_empty()
    }

    /// Twice the grants so far less the live orders.
    pub fn revision(&self) -> u32 {
        2 * self.grants as u32 - self.live.len() as u32
    }

    /// The circuit that is asked for, as far as the ring says.
    fn circuit(&self, [x, y, way, colour, _]: Asked) -> Result<Circuit, u16> {
        if x >= self.n || y >= self.n {
            return Err(4);
        }
        if x == y {
            return Err(5);
        }
        let way = match way {
            0 => Way::Plain,
            1 => Way::Seam,
            _ => return Err(9),
        };
        if colour >= self.w {
            return Err(10);
        }
        Ok(Circuit {
            a: x.min(y),
            b: x.max(y),
            way,
            colour,
        })
    }

    pub fn grant(&mut self, asked: Asked) -> Result<u16, u16> {
        let circuit = self.circuit(asked)?;
        let crew = asked[4];
        if crew > 999 {
            return Err(26);
        }
        if self.records().any(|(_, c)| conflict(self.n, c, &circuit)) {
            return Err(11);
        }
        if self.records().count() == 512 {
            return Err(12);
        }
        if self.grants == 65535 {
            return Err(13);
        }
        self.grants += 1;
        self.live.insert(self.grants, circuit);
        if crew != DESK {
            self.crews.insert(self.grants, crew);
        }
        Ok(self.grants)
    }

    /// The grants one after another on a copy, up to the first that is refused.
    pub fn preview(&self, lines: &[Asked]) -> Result<Previewed, u16> {
        if lines.is_empty() || lines.len() > 16 {
            return Err(22);
        }
        let mut copy = self.clone();
        let mut serials = Vec::new();
        for (i, &asked) in lines.iter().enumerate() {
            match copy.grant(asked) {
                Ok(serial) => serials.push(serial),
                Err(number) => return Ok((serials, Some((i, number)))),
            }
        }
        Ok((serials, None))
    }

    pub fn show(&self, serial: u16, crew: u16) -> Result<Circuit, u16> {
        if crew > 999 {
            return Err(26);
        }
        let readable = crew == DESK || crew == self.crew_of(serial);
        match self.live.get(&serial).filter(|_| readable) {
            Some(&circuit) => Ok(circuit),
            None if crew == DESK && (1..=self.grants).contains(&serial) => Err(15),
            None => Err(14),
        }
    }

    pub fn remove(&mut self, serial: u16) -> Result<(), u16> {
        let circuit = self.show(serial, DESK)?;
        self.live.remove(&serial);
        self.pending.insert(serial, circuit);
        Ok(())
    }

    pub fn confirm(&mut self, serial: u16) -> Result<(), u16> {
        match self.show(serial, DESK) {
            Ok(_) => Err(23),
            Err(15) if self.pending.remove(&serial).is_none() => Err(24),
            Err(15) => {
                self.crews.remove(&serial);
                Ok(())
            }
            Err(number) => Err(number),
        }
    }

    /// A removal and its confirmation: the order has no record any more.
    pub fn lapse(&mut self, serial: u16) -> Result<(), u16> {
        self.remove(serial)?;
        self.confirm(serial)
    }

    pub fn holder(&self, link: u16, colour: u16, crew: u16) -> Result<Holder, u16> {
        if crew > 999 {
            return Err(26);
        }
        if link >= self.n {
            return Err(16);
        }
        if colour >= self.w {
            return Err(10);
        }
        let holds = |c: &Circuit| c.colour == colour && uses(c, link);
        Ok(match self.records().find(|(_, c)| holds(c)) {
            None => Holder::Free,
            Some((&serial, _)) if crew == DESK => Holder::HeldBy(serial),
            Some((&serial, _)) if self.show(serial, crew).is_ok() => Holder::HeldBy(serial),
            Some(_) => Holder::Held,
        })
    }
}

/// A book of 256 nodes with circuits of one link each.
pub fn many(live: u16, grants: u16) -> NaiveBook {
    let mut book = NaiveBook::open(256, 4).unwrap();
    for i in 0..live {
        book.grant([i % 255, i % 255 + 1, 0, i / 255, DESK])
            .unwrap();
    }
    book.grants = grants;
    book
}
