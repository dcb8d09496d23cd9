//! The register over plain vectors: every rule in the simplest way that comes to mind.

pub const SPENT: u64 = 134_217_728;
const CREATION: u64 = 1 << 32;

#[derive(Clone, Copy, PartialEq, Debug)]
pub enum Standing {
    Open,
    Committed,
    Aborted,
}

#[derive(Clone, Copy)]
struct Record {
    creation: u64,
    expiry: u64,
    tokens: u64,
    standing: Standing,
}

#[derive(Clone, Copy)]
struct Item {
    start: u64,
    end: u64,
    mark: u64,
    number: u64,
}

/// What a call answers, for values that are numbers.
#[derive(Clone, Copy, PartialEq, Debug)]
pub enum Answer {
    Began(u64),
    Number(u64),
    Wait(u64),
    Done,
    Settled(u64, u64),
    Stands(Option<Standing>, u64),
    Refused(u8),
}

use Answer::Refused;

/// Objects whose items share one pool of free records, 64 commit records and 16 clocks.
pub struct Register {
    objects: Vec<Vec<Item>>,
    free: usize,
    records: Vec<Option<Record>>,
    clocks: Vec<u64>,
}

enum Met {
    Waits(u64),
    Reads(usize),
}

impl Register {
    pub fn new(objects: usize, number: u64, records: usize, clock: u64) -> Register {
        let first = Item { start: 0, end: 0, mark: 0, number };
        Register {
            objects: vec![vec![first]; objects],
            free: records - objects,
            records: vec![None; 65],
            clocks: vec![clock; 16],
        }
    }

    fn standing_now(&self, record: &Record) -> Standing {
        let clock = self.clocks[(record.creation % 16) as usize];
        if record.standing == Standing::Open && clock >= record.expiry {
            Standing::Aborted
        } else {
            record.standing
        }
    }

    fn stamp(&self, site: u64) -> u64 {
        self.clocks[site as usize] * 16 + site
    }

    fn check_ticket(&self, ticket: (u64, u64)) -> Result<(), Answer> {
        if !(1..=64).contains(&ticket.0) {
            return Err(Refused(2));
        }
        match &self.records[ticket.0 as usize] {
            Some(record) if record.creation == ticket.1 => match self.standing_now(record) {
                Standing::Open => Ok(()),
                Standing::Committed => Err(Refused(6)),
                Standing::Aborted => Err(Refused(7)),
            },
            _ => Err(Refused(5)),
        }
    }

    fn check_action(&self, ticket: (u64, u64)) -> Result<(), Answer> {
        self.check_ticket(ticket)?;
        if self.clocks[(ticket.1 % 16) as usize] >= SPENT {
            return Err(Refused(8));
        }
        Ok(())
    }

    pub fn begin(&mut self, number: u64, site: u64, lifetime: u64) -> Answer {
        if !(1..=64).contains(&number) {
            return Refused(2);
        }
        if site > 15 || !(2..=1_048_576).contains(&lifetime) {
            return Refused(3);
        }
        if let Some(record) = &self.records[number as usize] {
            if self.standing_now(record) == Standing::Open || record.tokens > 0 {
                return Refused(4);
            }
        }
        if self.clocks[site as usize] >= SPENT {
            return Refused(8);
        }
        let creation = self.stamp(site);
        let expiry = creation / 16 + lifetime;
        self.records[number as usize] = Some(Record { creation, expiry, tokens: 0, standing: Standing::Open });
        self.clocks[site as usize] += 1;
        Answer::Began(creation)
    }

    /// The standing of the record that a token belongs to.
    fn fate(&self, token: &Item) -> Standing {
        match &self.records[token.mark as usize] {
            Some(record) if record.creation == token.start / CREATION => self.standing_now(record),
            _ => Standing::Aborted,
        }
    }

    /// Seals or drops the token at a place, and lowers its record.
    fn settle_token(&mut self, object: usize, place: usize, fate: Standing) {
        let token = self.objects[object][place];
        if fate == Standing::Committed {
            self.objects[object][place].mark = 0;
        } else {
            self.objects[object].remove(place);
            self.free += 1;
        }
        if let Some(record) = &mut self.records[token.mark as usize] {
            if record.creation == token.start / CREATION {
                record.tokens = record.tokens.saturating_sub(1);
            }
        }
    }

    fn meet(&mut self, own: Option<(u64, u64)>, object: usize, time: u64) -> Met {
        loop {
            let place = self.objects[object].iter().rposition(|item| item.start <= time).expect("an item starts at 0");
            let item = self.objects[object][place];
            if item.mark == 0 || own == Some((item.mark, item.start / CREATION)) {
                return Met::Reads(place);
            }
            match self.fate(&item) {
                Standing::Open => return Met::Waits(item.mark),
                Standing::Committed => {
                    self.settle_token(object, place, Standing::Committed);
                    return Met::Reads(place);
                }
                Standing::Aborted => self.settle_token(object, place, Standing::Aborted),
            }
        }
    }

    fn look(&mut self, own: Option<(u64, u64)>, object: u64, time: u64, site: u64) -> Answer {
        if object >= self.objects.len() as u64 {
            return Refused(10);
        }
        let object = object as usize;
        match self.meet(own, object, time) {
            Met::Waits(number) => Answer::Wait(number),
            Met::Reads(place) => {
                let item = &mut self.objects[object][place];
                item.end = item.end.max(time);
                self.clocks[site as usize] += 1;
                Answer::Number(item.number)
            }
        }
    }

    pub fn read(&mut self, ticket: (u64, u64), object: u64) -> Answer {
        if let Err(refused) = self.check_action(ticket) {
            return refused;
        }
        let site = ticket.1 % 16;
        let time = ticket.1 * CREATION + self.stamp(site);
        self.look(Some(ticket), object, time, site)
    }

    pub fn glance(&mut self, site: u64, object: u64) -> Answer {
        if site > 15 {
            return Refused(3);
        }
        if self.clocks[site as usize] >= SPENT {
            return Refused(8);
        }
        let time = self.stamp(site) * CREATION;
        self.look(None, object, time, site)
    }

    pub fn update(&mut self, ticket: (u64, u64), object: u64, number: u64) -> Answer {
        if let Err(refused) = self.check_action(ticket) {
            return refused;
        }
        if object >= self.objects.len() as u64 {
            return Refused(10);
        }
        let site = ticket.1 % 16;
        let time = ticket.1 * CREATION + self.stamp(site);
        let chain = &mut self.objects[object as usize];
        let inside = chain.iter().any(|item| item.start <= time && time <= item.end);
        let record = self.records[ticket.0 as usize].as_mut().expect("the ticket matched");
        if inside || self.free == 0 {
            record.standing = Standing::Aborted;
            return Refused(if inside { 11 } else { 12 });
        }
        let place = chain.iter().filter(|item| item.start < time).count();
        chain.insert(place, Item { start: time, end: time, mark: ticket.0, number });
        self.free -= 1;
        record.tokens += 1;
        self.clocks[site as usize] += 1;
        Answer::Done
    }

    pub fn conclude(&mut self, ticket: (u64, u64), standing: Standing) -> Answer {
        if let Err(refused) = self.check_ticket(ticket) {
            return refused;
        }
        self.records[ticket.0 as usize].as_mut().expect("the ticket matched").standing = standing;
        Answer::Done
    }

    pub fn tick(&mut self, site: u64, clock: u64) -> Answer {
        if site > 15 {
            return Refused(3);
        }
        if clock <= self.clocks[site as usize] || clock >= SPENT {
            return Refused(9);
        }
        self.clocks[site as usize] = clock;
        Answer::Done
    }

    pub fn settle(&mut self, object: u64) -> Answer {
        if object >= self.objects.len() as u64 {
            return Refused(10);
        }
        let object = object as usize;
        let (mut sealed, mut dropped, mut place) = (0, 0, 0);
        while place < self.objects[object].len() {
            let item = self.objects[object][place];
            let fate = if item.mark == 0 { Standing::Open } else { self.fate(&item) };
            match fate {
                Standing::Open => place += 1,
                Standing::Committed => {
                    self.settle_token(object, place, fate);
                    sealed += 1;
                    place += 1;
                }
                Standing::Aborted => {
                    self.settle_token(object, place, fate);
                    dropped += 1;
                }
            }
        }
        Answer::Settled(sealed, dropped)
    }

    pub fn standing(&self, number: u64) -> Answer {
        if !(1..=64).contains(&number) {
            return Refused(2);
        }
        match &self.records[number as usize] {
            None => Answer::Stands(None, 0),
            Some(record) => Answer::Stands(Some(self.standing_now(record)), record.tokens),
        }
    }
}
