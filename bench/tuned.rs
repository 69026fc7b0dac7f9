//! The watch once more, unproved and tuned: the same tables, the same draws, written for speed.

/// The table of a condition: a bit for each of the 1,024 settings of ten waits.
type Table = [u64; 16];

const NEVER: Table = [0; 16];
const ALWAYS: Table = [u64::MAX; 16];

const INNER: [u64; 6] = [
    0xaaaa_aaaa_aaaa_aaaa,
    0xcccc_cccc_cccc_cccc,
    0xf0f0_f0f0_f0f0_f0f0,
    0xff00_ff00_ff00_ff00,
    0xffff_0000_ffff_0000,
    0xffff_ffff_0000_0000,
];

/// The tables of the ten waits.
static WAITS: [Table; 10] = waits();

const fn waits() -> [Table; 10] {
    let mut all = [NEVER; 10];
    let mut w = 0;
    while w < 10 {
        let mut i = 0;
        while i < 16 {
            all[w][i] = if w < 6 {
                INNER[w]
            } else if (i >> (w - 6)) & 1 == 1 {
                u64::MAX
            } else {
                0
            };
            i += 1;
        }
        w += 1;
    }
    all
}

#[derive(Clone, Copy)]
struct Interval {
    low: u8,
    high: Option<u8>,
}

impl Interval {
    fn contains(self, gap: u32) -> bool {
        u32::from(self.low) <= gap && self.high.is_none_or(|h| gap <= u32::from(h))
    }

    fn last(self) -> usize {
        usize::from(self.high.unwrap_or(self.low))
    }

    fn moved(self, shift: usize, gap: u32) -> Option<usize> {
        let to = shift as u64 + u64::from(gap);
        if to <= self.last() as u64 {
            Some(to as usize)
        } else if self.high.is_none() {
            Some(usize::from(self.low))
        } else {
            None
        }
    }
}

#[derive(Clone, Copy)]
enum Record {
    True,
    Letter(u8),
    Not(usize),
    And(usize, usize),
    Or(usize, usize),
    Previous(Interval, usize),
    Since(Interval, usize, usize),
    Next(Interval, usize),
    Until(Interval, usize, usize),
}

/// The records of a rule; arguments are the numbers of their first components. With each record are its first component and
/// its first wait.
struct Rule {
    rows: Vec<(Record, usize, usize)>,
    components: usize,
    waits: usize,
}

impl Rule {
    /// Reads a table that is known to be good.
    fn read(bytes: &[u8]) -> Rule {
        let mut rows: Vec<(Record, usize, usize)> = Vec::new();
        let (mut components, mut waits) = (0, 0);
        for r in bytes.chunks_exact(5) {
            let interval = Interval { low: r[3], high: (r[4] != 255).then_some(r[4]) };
            let at = |k: u8| rows[usize::from(k)].1;
            let record = match r[0] {
                0 => Record::True,
                1 => Record::Letter(r[1]),
                2 => Record::Not(at(r[1])),
                3 => Record::And(at(r[1]), at(r[2])),
                4 => Record::Or(at(r[1]), at(r[2])),
                5 => Record::Previous(interval, at(r[1])),
                6 => Record::Since(interval, at(r[1]), at(r[2])),
                7 => Record::Next(interval, at(r[1])),
                _ => Record::Until(interval, at(r[1]), at(r[2])),
            };
            rows.push((record, components, waits));
            let (more, own) = match record {
                Record::Since(..) => (interval.last() + 1, 0),
                Record::Until(..) => (interval.last() + 1, interval.last() + 1),
                Record::Next(..) => (1, 1),
                _ => (1, 0),
            };
            components += more;
            waits += own;
        }
        Rule { rows, components, waits }
    }
}

#[derive(Clone, Copy, PartialEq)]
pub struct Point {
    pub stamp: u32,
    pub offset: u16,
}

#[derive(Clone, Copy)]
#[allow(dead_code)]
pub enum Line {
    True(Point),
    False(Point),
    Joined { later: Point, earlier: Point },
}

#[derive(Clone, Copy)]
struct Held {
    point: Point,
    condition: Table,
}

pub enum Refusal {
    Stamp,
    Crowded,
    Slots,
}

/// Whether wait `w` does not matter to the 2^(w + 1) settings from `from` on.
#[inline(always)]
fn repeats(c: &Table, w: usize, from: usize) -> bool {
    if w < 6 {
        let half = 1 << w;
        let x = c[from / 64] >> (from % 64);
        (x ^ (x >> half)) & ((1 << half) - 1) == 0
    } else {
        let (first, half) = (from / 64, 1 << (w - 6));
        c[first..first + half] == c[first + half..first + 2 * half]
    }
}

/// The condition at the 2^`waits` settings from `from` on, with each wait below `waits` replaced: by cofactors, from the
/// highest wait that matters down.
fn carry(c: &Table, by: &[Table], mut waits: usize, from: usize, out: &mut Table) {
    while waits > 0 && repeats(c, waits - 1, from) {
        waits -= 1;
    }
    if waits == 0 {
        *out = if (c[from / 64] >> (from % 64)) & 1 == 1 { ALWAYS } else { NEVER };
        return;
    }
    let w = waits - 1;
    let mut high = NEVER;
    carry(c, by, w, from, out);
    carry(c, by, w, from + (1 << w), &mut high);
    let chosen = &by[w];
    for i in 0..16 {
        out[i] = (chosen[i] & high[i]) | (!chosen[i] & out[i]);
    }
}

pub struct Watch {
    rule: Rule,
    slots: usize,
    pub drawn: u32,
    pub accepted: u32,
    pub turned_away: u32,
    newest: Option<Point>,
    /// The conditions at the newest point, and those at the point before: the two change places at each draw.
    values: [Box<[Table]>; 2],
    front: usize,
    becomes: [Table; 10],
    /// The held points, and room for those of the next draw.
    held: [Box<[Held]>; 2],
    table: usize,
    pub count: usize,
}

/// `right`, where the interval has begun, or `left` and what lies across the gap.
#[inline(always)]
fn step(out: &mut Table, begun: bool, left: &Table, right: &Table, across: &Table) {
    if begun {
        for i in 0..16 {
            out[i] = right[i] | (left[i] & across[i]);
        }
    } else {
        for i in 0..16 {
            out[i] = left[i] & across[i];
        }
    }
}

impl Watch {
    pub fn new(bytes: &[u8], slots: usize) -> Watch {
        let rule = Rule::read(bytes);
        let components = rule.components;
        let values = || vec![NEVER; components].into_boxed_slice();
        let nobody = Held { point: Point { stamp: 0, offset: 0 }, condition: NEVER };
        let held = || vec![nobody; slots + 1].into_boxed_slice();
        Watch {
            rule,
            slots,
            drawn: 0,
            accepted: 0,
            turned_away: 0,
            newest: None,
            values: [values(), values()],
            front: 0,
            becomes: [NEVER; 10],
            held: [held(), held()],
            table: 0,
            count: 0,
        }
    }

    /// The conditions at a new point, and what the waits become there.
    #[inline]
    fn fill(&mut self, letters: u16, gap: Option<u32>) {
        let [a, b] = &mut self.values;
        let (before, fresh) = if self.front == 0 { (&**a, &mut **b) } else { (&**b, &mut **a) };
        let becomes = &mut self.becomes;
        for &(record, first, wait) in &self.rule.rows {
            let (done, rest) = fresh.split_at_mut(first);
            match record {
                Record::True => rest[0] = ALWAYS,
                Record::Letter(l) => rest[0] = if (letters >> l) & 1 == 1 { ALWAYS } else { NEVER },
                Record::Not(a) => {
                    for i in 0..16 {
                        rest[0][i] = !done[a][i];
                    }
                }
                Record::And(a, b) => {
                    for i in 0..16 {
                        rest[0][i] = done[a][i] & done[b][i];
                    }
                }
                Record::Or(a, b) => {
                    for i in 0..16 {
                        rest[0][i] = done[a][i] | done[b][i];
                    }
                }
                Record::Previous(interval, a) => match gap {
                    Some(g) if interval.contains(g) => carry(&before[a], &becomes[..wait], wait, 0, &mut rest[0]),
                    _ => rest[0] = NEVER,
                },
                Record::Since(interval, a, b) => {
                    for s in 0..=interval.last() {
                        let mut across = NEVER;
                        if let Some(to) = gap.and_then(|g| interval.moved(s, g)) {
                            carry(&before[first + to], &becomes[..wait], wait, 0, &mut across);
                        }
                        step(&mut rest[s], usize::from(interval.low) <= s, &done[a], &done[b], &across);
                    }
                }
                Record::Next(interval, a) => {
                    rest[0] = WAITS[wait];
                    becomes[wait] = match gap {
                        Some(g) if interval.contains(g) => done[a],
                        _ => NEVER,
                    };
                }
                Record::Until(interval, a, b) => {
                    let last = interval.last();
                    for s in 0..=last {
                        step(&mut rest[s], usize::from(interval.low) <= s, &done[a], &done[b], &WAITS[wait + s]);
                    }
                    for s in 0..=last {
                        becomes[wait + s] = match gap.and_then(|g| interval.moved(s, g)) {
                            Some(to) => rest[to],
                            None => NEVER,
                        };
                    }
                }
            }
        }
    }

    /// Judges a sample: the lines go to the front of the tray, and their number is the answer.
    pub fn judge(&mut self, stamp: u32, letters: u16, tray: &mut [Line]) -> Result<usize, Refusal> {
        self.drawn += 1;
        let (gap, offset) = match self.newest {
            None => (None, 0),
            Some(p) if stamp < p.stamp => {
                self.turned_away += 1;
                return Err(Refusal::Stamp);
            }
            Some(p) if stamp == p.stamp => match p.offset.checked_add(1) {
                Some(o) => (Some(0), o),
                None => {
                    self.turned_away += 1;
                    return Err(Refusal::Crowded);
                }
            },
            Some(p) => (Some(stamp - p.stamp), 0),
        };
        let point = Point { stamp, offset };
        self.fill(letters, gap);
        let fresh = &self.values[1 - self.front];
        let by = &self.becomes[..self.rule.waits];
        let [a, b] = &mut self.held;
        let (old, new) = if self.table == 0 { (&**a, &mut **b) } else { (&**b, &mut **a) };
        let (mut kept, mut given) = (0, 0);
        for i in 0..=self.count {
            let (kept_points, room) = new.split_at_mut(kept);
            let place = &mut room[0];
            if i < self.count {
                place.point = old[i].point;
                carry(&old[i].condition, by, by.len(), 0, &mut place.condition);
            } else {
                place.point = point;
                place.condition = fresh[self.rule.rows[self.rule.rows.len() - 1].1];
            }
            let condition = &place.condition;
            let word = condition[0];
            let constant = (word == 0 || word == u64::MAX) && condition.iter().all(|&x| x == word);
            let line = if constant {
                if word == 0 { Line::False(place.point) } else { Line::True(place.point) }
            } else if let Some(h) = kept_points.iter().find(|h| h.condition == *condition) {
                Line::Joined { later: place.point, earlier: h.point }
            } else {
                kept += 1;
                continue;
            };
            tray[given] = line;
            given += 1;
        }
        if kept > self.slots {
            self.turned_away += 1;
            return Err(Refusal::Slots);
        }
        self.accepted += 1;
        self.newest = Some(point);
        self.front = 1 - self.front;
        self.table = 1 - self.table;
        self.count = kept;
        Ok(given)
    }
}
