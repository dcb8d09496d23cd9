//! Random scripts: actions that conflict, expire, fill the store and spend a clock; stale tickets, unreadable lines, large numbers.

use crate::player::Player;
use crate::random::Random;

/// Plays along, so that most tickets are right.
struct Writer {
    random: Random,
    player: Player,
    clocks: [u64; 16],
    tickets: Vec<(u64, u64)>,
}

const LARGE: [u64; 8] = [0, 16, 64, 65, 134_217_727, 134_217_728, 4_294_967_295, 2_147_483_647];

impl Writer {
    fn site(&mut self) -> u64 {
        if self.random.below(20) == 0 { self.random.below(18) } else { self.random.below(3) }
    }

    fn object(&mut self) -> u64 {
        if self.random.below(25) == 0 { self.random.pick(&LARGE) } else { self.random.below(4) }
    }

    fn record(&mut self) -> u64 {
        if self.random.below(25) == 0 { self.random.pick(&LARGE) } else { 1 + self.random.below(6) }
    }

    fn ticket(&mut self) -> (u64, u64) {
        if self.tickets.is_empty() || self.random.below(15) == 0 {
            let creation = if self.random.below(3) == 0 { self.random.pick(&LARGE) } else { 16 + self.random.below(400) };
            return (self.record(), creation);
        }
        let last = self.tickets.len() as u64;
        let back = if self.random.below(6) == 0 { self.random.below(last) } else { self.random.below(last.min(2)) };
        self.tickets[(last - 1 - back) as usize]
    }

    fn seats(&mut self) -> String {
        match self.random.below(12) {
            0 => "-32768".into(),
            1 => "32767".into(),
            2 => "32768".into(),
            3 => format!("-{}", self.random.below(70_000)),
            _ => format!("{}", self.random.below(40)),
        }
    }

    fn begin(&mut self) -> String {
        let (record, site) = (self.record(), self.site());
        let lifetime = match self.random.below(12) {
            0 => self.random.below(4),
            1 => 1_048_576 + self.random.below(2),
            _ => 2 + self.random.below(60),
        };
        format!("b {record} {site} {lifetime}")
    }

    fn tick(&mut self) -> String {
        let site = self.site();
        let now = self.clocks[(site % 16) as usize];
        let clock = match self.random.below(60) {
            0 => self.random.pick(&LARGE),
            n if n < 8 => now,
            _ => now + self.random.below(8),
        };
        format!("t {site} {clock}")
    }

    fn damaged(&mut self) -> Vec<u8> {
        let mut line = self.sensible().into_bytes();
        match self.random.below(9) {
            0 => line.clear(),
            1 => line.push(b' '),
            2 => line.insert(1.min(line.len()), b' '),
            3 => line.push(b'x'),
            4 => line[0] = self.random.below(256) as u8,
            5 => line.extend_from_slice(b" 4294967296"),
            6 => line.extend_from_slice(b"00000000000"),
            7 => line.truncate(self.random.below(line.len() as u64) as usize),
            _ => {
                let at = self.random.below(line.len() as u64) as usize;
                line[at] = self.random.below(256) as u8;
            }
        }
        line.retain(|b| *b != b'\n');
        line
    }

    fn sensible(&mut self) -> String {
        if self.tickets.len() < 2 && self.random.below(3) > 0 {
            return self.begin();
        }
        match self.random.below(20) {
            0..=1 => self.begin(),
            2..=6 => {
                let ((record, creation), object) = (self.ticket(), self.object());
                format!("r {record} {creation} {object}")
            }
            7..=11 => {
                let ((record, creation), object, seats) = (self.ticket(), self.object(), self.seats());
                format!("u {record} {creation} {object} {seats}")
            }
            12 | 13 => {
                let (record, creation) = self.ticket();
                format!("c {record} {creation}")
            }
            14 => {
                let (record, creation) = self.ticket();
                format!("a {record} {creation}")
            }
            15 | 16 => {
                let (site, object) = (self.site(), self.object());
                format!("g {site} {object}")
            }
            17 => self.tick(),
            18 => format!("s {}", self.object()),
            _ => format!("q {}", self.record()),
        }
    }

    /// Plays a line, and learns a new ticket or a clock from its answer.
    fn play(&mut self, line: &[u8]) {
        let answer = self.player.line(line);
        let words: Vec<&str> = std::str::from_utf8(line).unwrap_or("").split(' ').collect();
        let ended = ["- 5", "- 6", "- 7", "- 11", "- 12"].contains(&answer.as_str()) || (answer == "." && ["c", "a"].contains(&words[0]));
        if ended && self.random.below(5) > 0 {
            let ticket = (words[1].parse().unwrap_or(0), words[2].parse().unwrap_or(0));
            self.tickets.retain(|other| *other != ticket);
        }
        if let Some(creation) = answer.strip_prefix("+ ") {
            let creation: u64 = creation.parse().expect("a creation");
            self.tickets.push((words[1].parse().expect("a record"), creation));
            self.clocks[(creation % 16) as usize] = creation / 16 + 1;
        } else if words[0] == "t" && answer == "." {
            let site: usize = words[1].parse().expect("a site");
            self.clocks[site] = words[2].parse().expect("a clock");
        } else if answer.starts_with('=') && words[0] == "g" {
            let site: usize = words[1].parse().expect("a site");
            self.clocks[site] += 1;
        }
    }
}

pub fn script(seed: u64, lines: usize) -> Vec<u8> {
    let mut writer = Writer { random: Random::new(seed), player: Player::new(), clocks: [1; 16], tickets: Vec::new() };
    let mut out = Vec::new();
    for k in 0..lines {
        let line = if k == 0 && seed % 5 == 0 {
            b"t 2 134217715".to_vec()
        } else if writer.random.below(30) == 0 {
            writer.damaged()
        } else {
            writer.sensible().into_bytes()
        };
        writer.play(&line);
        out.extend_from_slice(&line);
        out.push(b'\n');
    }
    if seed % 7 == 0 {
        out.pop();
    }
    out
}
