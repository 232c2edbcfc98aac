//! The commands that the bench sends, and their replies.

use crate::film::{Film, Walker};
use crate::search::{Finder, Hit, Marks};
use crate::step::Cell;

const MOST_LINE: usize = 256;
const MOST_CHECKPOINTS: usize = 64;
const DEPTH: usize = 4_096;

/// A fault's number.
type Fault = u16;

fn number(word: &[u8]) -> Result<u32, Fault> {
    let mut value = 0u64;
    for &c in word {
        if !c.is_ascii_digit() {
            return Err(202);
        }
        value = value * 10 + (c - b'0') as u64;
        if value > u32::MAX as u64 {
            return Err(202);
        }
    }
    if word.is_empty() { Err(202) } else { Ok(value as u32) }
}

/// A count of steps; the default is 1.
fn count(words: &[&[u8]]) -> Result<usize, Fault> {
    match words {
        [] => Ok(1),
        [word] => number(word).and_then(|n| if n == 0 { Err(202) } else { Ok(n as usize) }),
        _ => Err(202),
    }
}

fn push_number(out: &mut Vec<u8>, value: u64) {
    let mut digits = [0u8; 20];
    let mut first = digits.len();
    let mut left = value;
    loop {
        first -= 1;
        digits[first] = b'0' + (left % 10) as u8;
        left /= 10;
        if left == 0 {
            break;
        }
    }
    out.extend_from_slice(&digits[first..]);
}

fn push_fault(out: &mut Vec<u8>, fault: Fault) {
    let text = match fault {
        201 => "unknown command",
        202 => "bad argument",
        203 => "line too long",
        402 => "marks full",
        403 => "no such checkpoint",
        _ => "checkpoints full",
    };
    out.extend_from_slice(format!("fault {fault} {text}\n").as_bytes());
}

/// A debugger for a loaded recording: one break by number, one watch of a lock word, 64 checkpoints.
pub struct Session<'a> {
    film: &'a Film,
    finder: Finder<'a>,
    walker: Walker<'a>,
    pos: usize,
    marks: Marks,
    made: u32,
    checkpoints: Vec<usize>,
}

impl<'a> Session<'a> {
    pub fn new(film: &'a Film) -> Session<'a> {
        Session {
            film,
            finder: Finder::new(film),
            walker: Walker::new(film, DEPTH),
            pos: 0,
            marks: Marks::default(),
            made: 0,
            checkpoints: Vec::with_capacity(MOST_CHECKPOINTS),
        }
    }

    /// Answers one line; true at quit.
    pub fn line(&mut self, line: &[u8], out: &mut Vec<u8>) -> bool {
        if line.len() > MOST_LINE {
            push_fault(out, 203);
            return false;
        }
        // no command has more than three words
        let mut words: [&[u8]; 4] = [&[]; 4];
        let mut some = 0;
        for word in line.strip_suffix(b"\r").unwrap_or(line).split(|&c| c == b' ').filter(|word| !word.is_empty()) {
            if some < words.len() {
                words[some] = word;
                some += 1;
            }
        }
        match words[..some].split_first() {
            None => false,
            Some((&b"quit", [])) => {
                out.extend_from_slice(b"bye\n");
                true
            }
            Some((command, rest)) => {
                if let Err(fault) = self.play(command, rest, out) {
                    push_fault(out, fault);
                }
                false
            }
        }
    }

    fn play(&mut self, command: &[u8], rest: &[&[u8]], out: &mut Vec<u8>) -> Result<(), Fault> {
        match (command, rest) {
            (b"stepi", _) => self.step(count(rest)?, out),
            (b"reverse-stepi", _) => self.step_back(count(rest)?, out),
            (b"continue", []) => {
                let hit = self.finder.first_after(&self.marks, self.pos);
                self.stop(hit, self.film.len(), b" end", out);
            }
            (b"reverse-continue", []) => {
                let hit = self.finder.last_before(&self.marks, self.pos);
                self.stop(hit, 0, b" start", out);
            }
            (b"break", [word]) => self.mark_place(word, out)?,
            (b"watch", [b"lock", word]) => self.mark_cell(number(word)?, out)?,
            (b"checkpoint", []) => self.checkpoint(out)?,
            (b"restart", [word]) => self.restart(number(word)? as usize, out)?,
            (b"print", [b"lock", word]) => self.print(number(word)?, out),
            (b"continue" | b"reverse-continue" | b"break" | b"watch", _) => return Err(202),
            (b"checkpoint" | b"restart" | b"print" | b"quit", _) => return Err(202),
            _ => return Err(201),
        }
        Ok(())
    }

    fn say_at(&self, out: &mut Vec<u8>, tail: &[u8]) {
        out.extend_from_slice(b"at ");
        push_number(out, self.pos as u64);
        out.extend_from_slice(tail);
        out.push(b'\n');
    }

    fn step(&mut self, steps: usize, out: &mut Vec<u8>) {
        let over = self.pos + steps > self.film.len();
        self.pos = (self.pos + steps).min(self.film.len());
        self.say_at(out, if over { b" end" } else { b"" });
    }

    fn step_back(&mut self, steps: usize, out: &mut Vec<u8>) {
        let under = steps > self.pos;
        self.pos = self.pos.saturating_sub(steps);
        self.say_at(out, if under { b" start" } else { b"" });
    }

    /// Stops at the search's hit or, without a hit, at `last`.
    fn stop(&mut self, hit: Option<Hit>, last: usize, tail: &[u8], out: &mut Vec<u8>) {
        let Some(hit) = hit else {
            self.pos = last;
            return self.say_at(out, tail);
        };
        self.pos = hit.pos;
        let mut tail = b" by".to_vec();
        for mark in hit.marks {
            tail.push(b' ');
            push_number(&mut tail, mark as u64);
        }
        self.say_at(out, &tail);
    }

    fn say_mark(&mut self, out: &mut Vec<u8>) {
        self.made += 1;
        out.extend_from_slice(b"mark ");
        push_number(out, self.made as u64);
        out.push(b'\n');
    }

    fn mark_place(&mut self, word: &[u8], out: &mut Vec<u8>) -> Result<(), Fault> {
        let step = number(word.strip_prefix(b"@").ok_or(202u16)?)?;
        if step == 0 {
            return Err(202);
        }
        if self.marks.place.is_some() {
            return Err(402);
        }
        self.say_mark(out);
        self.marks.place = Some((self.made, step as usize - 1));
        Ok(())
    }

    fn mark_cell(&mut self, num: u32, out: &mut Vec<u8>) -> Result<(), Fault> {
        if self.marks.cell.is_some() {
            return Err(402);
        }
        self.say_mark(out);
        self.marks.cell = Some((self.made, Cell { kind: 7, num }));
        Ok(())
    }

    fn checkpoint(&mut self, out: &mut Vec<u8>) -> Result<(), Fault> {
        if self.checkpoints.len() == MOST_CHECKPOINTS {
            return Err(404);
        }
        self.checkpoints.push(self.pos);
        out.extend_from_slice(format!("checkpoint {} at {}\n", self.checkpoints.len(), self.pos).as_bytes());
        Ok(())
    }

    fn restart(&mut self, checkpoint: usize, out: &mut Vec<u8>) -> Result<(), Fault> {
        self.pos = match checkpoint {
            0 => 0,
            n => *self.checkpoints.get(n - 1).ok_or(403u16)?,
        };
        self.say_at(out, b"");
        Ok(())
    }

    fn print(&mut self, num: u32, out: &mut Vec<u8>) {
        self.walker.go_to(self.pos);
        out.extend_from_slice(b"lock ");
        push_number(out, num as u64);
        out.extend_from_slice(b" = ");
        match self.walker.world().cell(Cell { kind: 7, num }) {
            None => out.extend_from_slice(b"absent"),
            Some(value) => push_number(out, value),
        }
        out.push(b'\n');
    }
}
