//! Script lines in, answers out: seats, four objects starting at 12, 20 records, first clock 1.

use crate::register::{Answer, Register, Standing};

/// One field of a line: at most 4,294,967,295, by 1 to 10 digits; a value may have a minus sign.
fn number(field: &[u8]) -> Option<u64> {
    if field.is_empty() || field.len() > 10 || !field.iter().all(u8::is_ascii_digit) {
        return None;
    }
    let n = field.iter().fold(0u64, |n, d| n * 10 + u64::from(d - b'0'));
    if n <= 4_294_967_295 { Some(n) } else { None }
}

/// A number of free seats as its form.
fn form(field: &[u8]) -> Option<u64> {
    match field.strip_prefix(b"-") {
        Some(digits) => match number(digits)? {
            0 => Some(0),
            n if n <= 32_768 => Some(65_536 - n),
            _ => None,
        },
        None => number(field).filter(|n| *n <= 32_767),
    }
}

fn value(form: u64) -> i64 {
    if form < 32_768 { form as i64 } else { form as i64 - 65_536 }
}

/// A line's letter and fields, if it has as many as the letter asks.
fn fields(line: &[u8]) -> Option<(u8, Vec<&[u8]>)> {
    let mut parts = line.split(|b| *b == b' ');
    let &[letter] = parts.next()? else { return None };
    let fields: Vec<&[u8]> = parts.collect();
    let wanted = match letter {
        b'b' => 3,
        b'r' => 3,
        b'u' => 4,
        b'c' | b'a' | b'g' | b't' => 2,
        b's' | b'q' => 1,
        _ => return None,
    };
    if fields.len() == wanted { Some((letter, fields)) } else { None }
}

fn answer(register: &mut Register, line: &[u8]) -> Option<Answer> {
    let (letter, fields) = fields(line)?;
    if letter == b'u' {
        let (a, b, c) = (number(fields[0])?, number(fields[1])?, number(fields[2])?);
        return Some(register.update((a, b), c, form(fields[3])?));
    }
    let mut n = [0u64; 3];
    for (k, field) in fields.iter().enumerate() {
        n[k] = number(field)?;
    }
    Some(match letter {
        b'b' => register.begin(n[0], n[1], n[2]),
        b'r' => register.read((n[0], n[1]), n[2]),
        b'c' => register.conclude((n[0], n[1]), Standing::Committed),
        b'a' => register.conclude((n[0], n[1]), Standing::Aborted),
        b'g' => register.glance(n[0], n[1]),
        b't' => register.tick(n[0], n[1]),
        b's' => register.settle(n[0]),
        _ => register.standing(n[0]),
    })
}

fn print(answer: Answer) -> String {
    match answer {
        Answer::Began(creation) => format!("+ {creation}"),
        Answer::Number(form) => format!("= {}", value(form)),
        Answer::Wait(record) => format!("w {record}"),
        Answer::Done => ".".to_string(),
        Answer::Settled(sealed, dropped) => format!("s {sealed} {dropped}"),
        Answer::Stands(standing, tokens) => {
            let word = match standing {
                None => "unused",
                Some(Standing::Open) => "open",
                Some(Standing::Committed) => "committed",
                Some(Standing::Aborted) => "aborted",
            };
            format!("q {word} {tokens}")
        }
        Answer::Refused(number) => format!("- {number}"),
    }
}

pub struct Player(Register);

impl Player {
    pub fn new() -> Player {
        Player(Register::new(4, 12, 20, 1))
    }

    /// The answer to one line, without its end.
    pub fn line(&mut self, line: &[u8]) -> String {
        print(answer(&mut self.0, line).unwrap_or(Answer::Refused(15)))
    }
}

impl Default for Player {
    fn default() -> Player {
        Player::new()
    }
}

/// Every line's answer, a line each.
pub fn play(script: &[u8]) -> Vec<u8> {
    let mut player = Player::new();
    let mut out = Vec::new();
    let mut lines: Vec<&[u8]> = script.split(|b| *b == b'\n').collect();
    if lines.last().is_some_and(|line| line.is_empty()) {
        lines.pop();
    }
    for line in lines {
        out.extend_from_slice(player.line(line).as_bytes());
        out.push(b'\n');
    }
    out
}
