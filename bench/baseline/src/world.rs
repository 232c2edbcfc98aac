//! The model machine: packed rows, apply with small undo records, undo.

use crate::heap::{Entry, Heap};
use crate::lock;
use crate::step::*;
use std::collections::VecDeque;

// ---- goroutine rows: one u64 ------------------------------------------------------------
// bits 0..4 status, bit 4 side, bits 5..13 socket or descriptor;
// queued: next in bits 16..32, previous in bits 32..48;
// owing: read releases in bits 16..36, write releases in bits 36..56.

pub const IDLE: u64 = 0;
pub const ACQUIRING: u64 = 1;
pub const QUEUED: u64 = 2;
pub const RELOCK: u64 = 3;
pub const OWING: u64 = 4;
pub const ENTERING: u64 = 5;
pub const ARMED: u64 = 6;
pub const PARKING: u64 = 7;
pub const PARKED: u64 = 8;
pub const SWAPPING: u64 = 9;
pub const CHECKING: u64 = 10;
pub const GONE: u64 = 11;

/// No goroutine, in links and queue ends.
pub const NIL16: u16 = u16::MAX;

#[inline(always)]
fn row(status: u64, side: usize, obj: usize) -> u64 {
    status | (side as u64) << 4 | (obj as u64) << 5
}
#[inline(always)]
fn linked(side: usize, obj: usize, next: u16, prev: u16) -> u64 {
    row(QUEUED, side, obj) | (next as u64) << 16 | (prev as u64) << 32
}
#[inline(always)]
fn owing(obj: usize, r: u32, w: u32) -> u64 {
    row(OWING, 0, obj) | (r as u64) << 16 | (w as u64) << 36
}
#[inline(always)]
pub fn row_status(r: u64) -> u64 {
    r & 15
}
#[inline(always)]
pub fn row_side(r: u64) -> usize {
    (r >> 4 & 1) as usize
}
#[inline(always)]
pub fn row_obj(r: u64) -> usize {
    (r >> 5 & 255) as usize
}
#[inline(always)]
pub fn row_next(r: u64) -> u16 {
    (r >> 16) as u16
}
#[inline(always)]
pub fn row_prev(r: u64) -> u16 {
    (r >> 32) as u16
}
#[inline(always)]
pub fn row_owed(r: u64) -> (u32, u32) {
    ((r >> 16) as u32 & 0xF_FFFF, (r >> 36) as u32 & 0xF_FFFF)
}

// ---- descriptor words and marks -----------------------------------------------------------

pub const WNIL: u16 = 0;
pub const WREADY: u16 = 1;
pub const WWAIT: u16 = 2;
/// A word that holds goroutine g is `WGOR + g`.
pub const WGOR: u16 = 3;

const CLOSING: u8 = 1;
const EVERR: u8 = 2;
const RUN: [u8; 2] = [4, 8];
const FREE: u8 = 16;
const INSIDE: [u8; 2] = [32, 64];

#[derive(Clone, Copy, PartialEq, Eq, Debug)]
struct Queue {
    front: u16,
    back: u16,
}

#[derive(Clone, Copy, PartialEq, Eq, Debug)]
struct Ring {
    head: u32,
    len: u32,
    cap: u32,
}

#[derive(Clone, Copy, PartialEq, Eq, Debug)]
pub struct Sock {
    lock: u64,
    count: [u32; 2],
    queue: [Queue; 2],
    /// 0: input, 1: output
    ring: [Ring; 2],
    peer_closed: bool,
}

#[derive(Clone, Copy, PartialEq, Eq, Debug)]
pub struct Desc {
    deadline: [i64; 2],
    seq: [u64; 2],
    fdseq: u64,
    word: [u16; 2],
    sock: u16,
    flags: u8,
}

impl Desc {
    #[inline(always)]
    fn check(&self, side: usize) -> u8 {
        if self.flags & CLOSING != 0 {
            1
        } else if self.deadline[side] < 0 {
            2
        } else if side == 0 && self.flags & EVERR != 0 {
            3
        } else {
            0
        }
    }
    #[inline(always)]
    fn combo(&self) -> bool {
        self.deadline[0] > 0 && self.deadline[0] == self.deadline[1]
    }
    #[inline(always)]
    fn words(&self) -> u32 {
        self.word[0] as u32 | (self.word[1] as u32) << 16
    }
}

const F_READ: u8 = 0;
const F_WRITE: u8 = 1;
const F_BOTH: u8 = 2;

#[derive(Clone, Copy, PartialEq, Eq, Debug)]
pub struct Firing {
    seq: u64,
    arm: u64,
    d: u16,
    side: u8,
    func: u8,
}

// ---- undo records ---------------------------------------------------------------------------

/// An undo record of fixed size. The log's stacks hold the rest: `words` more u64 and, for SYSREAD
/// and DRAIN, `c` bytes.
#[derive(Clone, Copy, Debug)]
pub struct Rec {
    pub op: u8,
    pub words: u8,
    pub a: u8,
    pub f: u8,
    pub c: u32,
    pub w: u64,
}

mod op {
    pub const NOP: u8 = 0;
    pub const SPAWN: u8 = 1;
    pub const EXIT: u8 = 2;
    pub const SOCKOPEN: u8 = 3;
    pub const ARRIVE: u8 = 4;
    pub const PEERCLOSE: u8 = 5;
    pub const SYSREAD: u8 = 6;
    pub const SYSWRITE: u8 = 7;
    pub const DRAIN: u8 = 8;
    /// a = s, w = old word
    pub const LOCK: u8 = 9;
    /// a = s, c = g, f: 0 g was idle, else 1 + side of a relock; w = old word
    pub const LOCK_ROW: u8 = 10;
    /// f: 0 was Yes, 1 was Wait; c = g
    pub const ACQUIRE: u8 = 14;
    /// c = g and the front that left, w = old row
    pub const RELEASE: u8 = 15;
    pub const OPEN_NEW: u8 = 16;
    pub const OPEN_FREE: u8 = 17;
    pub const CLOSE: u8 = 18;
    /// a = d, f = side, c = old word
    pub const RESET: u8 = 19;
    /// a = d, f = side, c = g: g was idle and entered
    pub const ENTER: u8 = 20;
    /// c = g, w = old row: the row alone
    pub const ROW: u8 = 21;
    /// c = g and old word, w = old row, f bit 0: the wait ended
    pub const ROW_WORD: u8 = 22;
    /// c = g, w = old row: the word was wait
    pub const PARK: u8 = 23;
    pub const DEADLINE: u8 = 25;
    pub const EVICT: u8 = 26;
    pub const EVENT: u8 = 27;
    pub const TICK: u8 = 28;
    pub const POP: u8 = 29;
    pub const FIRE: u8 = 30;
    pub const FIRE_STALE: u8 = 31;
}

const NOP: Rec = Rec { op: op::NOP, words: 0, a: 0, f: 0, c: 0, w: 0 };

impl Rec {
    /// Bytes that this record keeps in the log's byte stack.
    #[inline(always)]
    pub fn bytes(&self) -> usize {
        if self.op == op::SYSREAD || self.op == op::DRAIN {
            self.c as usize
        } else {
            0
        }
    }
}

/// Where apply puts undo records.
pub trait Log {
    fn rec(&mut self, r: Rec);
    fn word(&mut self, w: u64);
    fn bytes(&mut self, a: &[u8], b: &[u8]);
}

/// Keeps nothing.
pub struct NoLog;

impl Log for NoLog {
    #[inline(always)]
    fn rec(&mut self, _: Rec) {}
    #[inline(always)]
    fn word(&mut self, _: u64) {}
    #[inline(always)]
    fn bytes(&mut self, _: &[u8], _: &[u8]) {}
}

/// A stack whose bottom can be dropped.
#[derive(Default)]
pub struct Stack<T> {
    v: Vec<T>,
    start: usize,
}

impl<T: Copy> Stack<T> {
    #[inline(always)]
    fn push(&mut self, x: T) {
        self.v.push(x);
    }
    #[inline(always)]
    fn pop(&mut self) -> T {
        self.v.pop().unwrap()
    }
    #[inline(always)]
    fn drop_bottom(&mut self, n: usize) {
        self.start += n;
        if self.start >= 8192 && self.start * 2 >= self.v.len() {
            self.compact();
        }
    }
    #[cold]
    fn compact(&mut self) {
        self.v.drain(..self.start);
        self.start = 0;
    }
    fn clear(&mut self) {
        self.v.clear();
        self.start = 0;
    }
}

/// The last `depth` undo records.
pub struct UndoLog {
    ring: Vec<Rec>,
    mask: usize,
    /// how many records were ever dropped at the bottom, and the number after the last one
    head: usize,
    tail: usize,
    depth: usize,
    words: Stack<u64>,
    bytes: Stack<u8>,
}

impl UndoLog {
    pub fn new(depth: usize) -> UndoLog {
        let cap = depth.next_power_of_two();
        UndoLog {
            ring: vec![NOP; cap],
            mask: cap - 1,
            head: 0,
            tail: 0,
            depth,
            words: Stack { v: Vec::new(), start: 0 },
            bytes: Stack { v: Vec::new(), start: 0 },
        }
    }
    /// The number of records that can be undone.
    #[inline(always)]
    pub fn kept(&self) -> usize {
        self.tail - self.head
    }
    pub fn clear(&mut self) {
        self.head = 0;
        self.tail = 0;
        self.words.clear();
        self.bytes.clear();
    }
    #[inline(always)]
    fn take(&mut self) -> Option<Rec> {
        if self.tail == self.head {
            return None;
        }
        self.tail -= 1;
        Some(self.ring[self.tail & self.mask])
    }
}

impl Log for UndoLog {
    #[inline(always)]
    fn rec(&mut self, r: Rec) {
        if self.tail - self.head == self.depth {
            let old = self.ring[self.head & self.mask];
            if old.words != 0 {
                self.words.drop_bottom(old.words as usize);
            }
            let b = old.bytes();
            if b != 0 {
                self.bytes.drop_bottom(b);
            }
            self.head += 1;
        }
        let at = self.tail & self.mask;
        self.ring[at] = r;
        self.tail += 1;
    }
    #[inline(always)]
    fn word(&mut self, w: u64) {
        self.words.push(w);
    }
    #[inline(always)]
    fn bytes(&mut self, a: &[u8], b: &[u8]) {
        self.bytes.v.extend_from_slice(a);
        self.bytes.v.extend_from_slice(b);
    }
}

// ---- the world ------------------------------------------------------------------------------

pub struct World {
    lim: Limits,
    clock: i64,
    next_arm: u64,
    waiters: u32,
    gor: Vec<u64>,
    socks: Vec<Sock>,
    descs: Vec<Desc>,
    /// free descriptors; the last one is used next
    free: Vec<u16>,
    heap: Heap,
    firings: VecDeque<Firing>,
    /// socket s: input at 2 s buf, output at (2 s + 1) buf
    rings: Vec<u8>,
}

/// A compact copy of a world. It has only the used bytes of each buffer.
#[derive(Clone, PartialEq, Eq, Debug)]
pub struct Snap {
    clock: i64,
    next_arm: u64,
    waiters: u32,
    gor: Box<[u64]>,
    socks: Box<[Sock]>,
    descs: Box<[Desc]>,
    free: Box<[u16]>,
    heap: Box<[Entry]>,
    firings: Box<[Firing]>,
    bytes: Box<[u8]>,
}

type Res = Result<Answer, Refusal>;

macro_rules! refuse {
    ($n:expr) => {
        return Err(Refusal($n))
    };
}

impl World {
    pub fn fresh(lim: Limits) -> World {
        let mut gor = Vec::with_capacity(lim.gor as usize);
        gor.push(IDLE);
        World {
            lim,
            clock: 0,
            next_arm: 1,
            waiters: 0,
            gor,
            socks: Vec::with_capacity(lim.sock as usize),
            descs: Vec::with_capacity(lim.desc as usize),
            free: Vec::with_capacity(lim.desc as usize),
            heap: Heap::new(lim.desc),
            firings: VecDeque::with_capacity(2 * lim.desc as usize),
            rings: vec![0; 2 * lim.sock as usize * lim.buf as usize],
        }
    }

    // ---- copies ----

    pub fn snap(&self) -> Snap {
        let mut held = 0;
        for s in &self.socks {
            held += s.ring[0].len as usize + s.ring[1].len as usize;
        }
        let mut bytes = Vec::with_capacity(held);
        let mut socks = self.socks.clone();
        for (i, s) in socks.iter_mut().enumerate() {
            for dir in 0..2 {
                let (a, b) = self.held(i, dir);
                bytes.extend_from_slice(a);
                bytes.extend_from_slice(b);
                s.ring[dir].head = 0;
            }
        }
        Snap {
            clock: self.clock,
            next_arm: self.next_arm,
            waiters: self.waiters,
            gor: self.gor.as_slice().into(),
            socks: socks.into(),
            descs: self.descs.as_slice().into(),
            free: self.free.as_slice().into(),
            heap: self.heap.entries().into(),
            firings: self.firings.iter().copied().collect(),
            bytes: bytes.into(),
        }
    }

    pub fn restore(&mut self, s: &Snap) {
        self.clock = s.clock;
        self.next_arm = s.next_arm;
        self.waiters = s.waiters;
        self.gor.clear();
        self.gor.extend_from_slice(&s.gor);
        self.socks.clear();
        self.socks.extend_from_slice(&s.socks);
        self.descs.clear();
        self.descs.extend_from_slice(&s.descs);
        self.free.clear();
        self.free.extend_from_slice(&s.free);
        self.heap.assign(&s.heap);
        self.firings.clear();
        self.firings.extend(s.firings.iter().copied());
        let buf = self.lim.buf as usize;
        let mut from = 0;
        for (i, k) in s.socks.iter().enumerate() {
            for dir in 0..2 {
                let n = k.ring[dir].len as usize;
                if n != 0 {
                    let base = (2 * i + dir) * buf;
                    self.rings[base..base + n].copy_from_slice(&s.bytes[from..from + n]);
                    from += n;
                }
            }
        }
    }

    // ---- rings ----

    #[inline(always)]
    fn held(&self, s: usize, dir: usize) -> (&[u8], &[u8]) {
        let r = &self.socks[s].ring[dir];
        self.part(s, dir, r.head as usize, r.len as usize)
    }

    /// n bytes of a ring, starting at index `at`, as two slices.
    #[inline(always)]
    fn part(&self, s: usize, dir: usize, at: usize, n: usize) -> (&[u8], &[u8]) {
        let buf = self.lim.buf as usize;
        let base = (2 * s + dir) * buf;
        let ring = &self.rings[base..base + buf];
        let one = n.min(buf - at);
        (&ring[at..at + one], &ring[..n - one])
    }

    #[inline(always)]
    fn store(&mut self, s: usize, dir: usize, at: usize, bytes: &[u8]) {
        let buf = self.lim.buf as usize;
        let base = (2 * s + dir) * buf;
        let ring = &mut self.rings[base..base + buf];
        let one = bytes.len().min(buf - at);
        ring[at..at + one].copy_from_slice(&bytes[..one]);
        ring[..bytes.len() - one].copy_from_slice(&bytes[one..]);
    }

    #[inline(always)]
    fn ring_push(&mut self, s: usize, dir: usize, bytes: &[u8]) {
        let buf = self.lim.buf;
        let r = &mut self.socks[s].ring[dir];
        let mut at = r.head + r.len;
        if at >= buf {
            at -= buf;
        }
        r.len += bytes.len() as u32;
        self.store(s, dir, at as usize, bytes);
    }

    #[inline(always)]
    fn ring_take<L: Log>(&mut self, s: usize, dir: usize, n: u32, log: &mut L) {
        let buf = self.lim.buf;
        let head = self.socks[s].ring[dir].head;
        let (a, b) = self.part(s, dir, head as usize, n as usize);
        log.bytes(a, b);
        let r = &mut self.socks[s].ring[dir];
        r.head = if head + n >= buf { head + n - buf } else { head + n };
        r.len -= n;
    }

    #[inline(always)]
    fn ring_untake(&mut self, s: usize, dir: usize, bytes: &[u8]) {
        let buf = self.lim.buf;
        let n = bytes.len() as u32;
        let r = &mut self.socks[s].ring[dir];
        r.head = if r.head < n { r.head + buf - n } else { r.head - n };
        r.len += n;
        let at = r.head as usize;
        self.store(s, dir, at, bytes);
    }

    // ---- queues ----

    #[inline(always)]
    fn enqueue(&mut self, s: usize, side: usize, g: usize) {
        let q = &mut self.socks[s].queue[side];
        let back = q.back;
        q.back = g as u16;
        if back == NIL16 {
            q.front = g as u16;
        } else {
            let r = &mut self.gor[back as usize];
            *r = *r & !(0xFFFF << 16) | (g as u64) << 16;
        }
        self.gor[g] = linked(side, s, NIL16, back);
    }

    #[inline(always)]
    fn unenqueue(&mut self, s: usize, side: usize, g: usize) {
        let prev = row_prev(self.gor[g]);
        let q = &mut self.socks[s].queue[side];
        q.back = prev;
        if prev == NIL16 {
            q.front = NIL16;
        } else {
            self.gor[prev as usize] |= 0xFFFF << 16;
        }
        self.gor[g] = row(ACQUIRING, side, s);
    }

    #[inline(always)]
    fn dequeue(&mut self, s: usize, side: usize) -> u16 {
        let q = &mut self.socks[s].queue[side];
        let g = q.front;
        if g == NIL16 {
            return g;
        }
        let next = row_next(self.gor[g as usize]);
        q.front = next;
        if next == NIL16 {
            q.back = NIL16;
        } else {
            self.gor[next as usize] |= 0xFFFF << 32;
        }
        self.gor[g as usize] = row(ACQUIRING, side, s);
        g
    }

    #[inline(always)]
    fn undequeue(&mut self, s: usize, side: usize, g: u16) {
        let q = &mut self.socks[s].queue[side];
        let next = q.front;
        q.front = g;
        if next == NIL16 {
            q.back = g;
        } else {
            let r = &mut self.gor[next as usize];
            *r = *r & !(0xFFFF << 32) | (g as u64) << 32;
        }
        self.gor[g as usize] = linked(side, s, next, NIL16);
    }

    // ---- words ----

    #[inline(always)]
    fn unblock(&mut self, d: usize, side: usize, ioready: bool) {
        let word = &mut self.descs[d].word[side];
        let old = *word;
        if old == WREADY {
            return;
        }
        *word = if ioready { WREADY } else { WNIL };
        if old >= WGOR {
            let r = &mut self.gor[(old - WGOR) as usize];
            *r = *r & !15 | SWAPPING;
            self.waiters -= 1;
        }
    }

    #[inline(always)]
    fn restore_words(&mut self, d: usize, words: u32) {
        for side in 0..2 {
            let old = (words >> (16 * side)) as u16;
            let word = &mut self.descs[d].word[side];
            if *word != old {
                *word = old;
                if old >= WGOR {
                    let r = &mut self.gor[(old - WGOR) as usize];
                    *r = *r & !15 | PARKED;
                    self.waiters += 1;
                }
            }
        }
    }

    // ---- timers ----

    #[inline(always)]
    fn arm(&mut self, d: usize, side: usize) {
        let e = Entry { when: self.descs[d].deadline[side], arm: self.next_arm, id: (2 * d + side) as u16 };
        self.next_arm += 1;
        self.heap.insert(e);
    }

    /// Removes the timer's entry if there is one and logs its arming number and places.
    #[inline(always)]
    fn stop<L: Log>(&mut self, d: usize, side: usize, log: &mut L) -> bool {
        let p = self.heap.place_of((2 * d + side) as u16);
        if p == crate::heap::NONE {
            return false;
        }
        let (e, q) = self.heap.remove(p as usize);
        log.word(e.arm);
        log.word(p as u64 | (q as u64) << 16);
        true
    }

    /// Undoes `stop`; the descriptor's deadline is the old one again.
    #[inline(always)]
    fn unstop(&mut self, d: usize, side: usize, words: &mut Stack<u64>) {
        let pq = words.pop();
        let arm = words.pop();
        let when = self.descs[d].deadline[side];
        self.heap.unremove(pq as u16 as usize, (pq >> 16) as usize, Entry { when, arm, id: (2 * d + side) as u16 });
    }

    // ---- the tests that begin a row ----

    #[inline(always)]
    fn alive(&self, g: u32) -> Result<u64, Refusal> {
        match self.gor.get(g as usize) {
            Some(&r) if r != GONE => Ok(r),
            _ => Err(Refusal(1)),
        }
    }
    #[inline(always)]
    fn idle(&self, g: u32) -> Result<usize, Refusal> {
        if self.alive(g)? != IDLE {
            refuse!(2);
        }
        Ok(g as usize)
    }
    #[inline(always)]
    fn at(&self, g: u32, status: u64) -> Result<u64, Refusal> {
        let r = self.alive(g)?;
        if row_status(r) != status {
            refuse!(2);
        }
        Ok(r)
    }
    #[inline(always)]
    fn sock(&self, s: u32) -> Result<usize, Refusal> {
        if s as usize >= self.socks.len() {
            refuse!(4);
        }
        Ok(s as usize)
    }
    #[inline(always)]
    fn open(&self, d: u32) -> Result<usize, Refusal> {
        match self.descs.get(d as usize) {
            Some(x) if x.flags & FREE == 0 => Ok(d as usize),
            _ => Err(Refusal(5)),
        }
    }

    // ---- apply ----

    /// Applies steps in order. If one is refused, returns its index and the reason.
    pub fn replay<L: Log>(&mut self, steps: &[Step], data: &[u8], log: &mut L) -> Result<(), (usize, u8)> {
        for (i, s) in steps.iter().enumerate() {
            if let Err(Refusal(reason)) = self.apply(s, data, log) {
                return Err((i, reason));
            }
        }
        Ok(())
    }

    /// Applies a step; `data` is the recording's arena of bytes. A refusal changes nothing.
    #[inline(always)]
    pub fn apply<L: Log>(&mut self, step: &Step, data: &[u8], log: &mut L) -> Res {
        match *step {
            Step::Spawn => {
                let n = self.gor.len() as u32;
                if n >= self.lim.gor {
                    refuse!(3);
                }
                self.gor.push(IDLE);
                log.rec(Rec { op: op::SPAWN, ..NOP });
                Ok(Answer::Number(n))
            }
            Step::Exit { g } => {
                let gi = self.idle(g)?;
                self.gor[gi] = GONE;
                log.rec(Rec { op: op::EXIT, c: g, ..NOP });
                Ok(Answer::Done)
            }
            Step::SockOpen { rc, wc } => {
                let n = self.socks.len() as u32;
                if n >= self.lim.sock {
                    refuse!(3);
                }
                let ok = 1..=self.lim.buf;
                if !ok.contains(&rc) || !ok.contains(&wc) {
                    refuse!(19);
                }
                let q = Queue { front: NIL16, back: NIL16 };
                self.socks.push(Sock {
                    lock: 0,
                    count: [0; 2],
                    queue: [q; 2],
                    ring: [Ring { head: 0, len: 0, cap: rc }, Ring { head: 0, len: 0, cap: wc }],
                    peer_closed: false,
                });
                log.rec(Rec { op: op::SOCKOPEN, ..NOP });
                Ok(Answer::Number(n))
            }
            Step::Arrive { s, off, len } => {
                let si = self.sock(s)?;
                let k = &self.socks[si];
                if len == 0 {
                    refuse!(19);
                }
                if k.peer_closed {
                    refuse!(20);
                }
                if len > k.ring[0].cap - k.ring[0].len {
                    refuse!(16);
                }
                self.ring_push(si, 0, &data[off as usize..off as usize + len as usize]);
                log.rec(Rec { op: op::ARRIVE, a: si as u8, c: len, ..NOP });
                Ok(Answer::Done)
            }
            Step::PeerClose { s } => {
                let si = self.sock(s)?;
                let k = &mut self.socks[si];
                if k.peer_closed {
                    refuse!(20);
                }
                k.peer_closed = true;
                log.rec(Rec { op: op::PEERCLOSE, a: si as u8, ..NOP });
                Ok(Answer::Done)
            }
            Step::SysRead { g, s, n } => {
                self.idle(g)?;
                let si = self.sock(s)?;
                if n == 0 || n > self.lim.buf {
                    refuse!(19);
                }
                let k = &self.socks[si];
                let take = n.min(k.ring[0].len);
                if take == 0 {
                    let a = if k.peer_closed { Answer::Eof } else { Answer::Again };
                    log.rec(NOP);
                    return Ok(a);
                }
                self.ring_take(si, 0, take, log);
                log.rec(Rec { op: op::SYSREAD, a: si as u8, c: take, ..NOP });
                Ok(Answer::Got(take))
            }
            Step::SysWrite { g, s, off, len } => {
                self.idle(g)?;
                let si = self.sock(s)?;
                if len == 0 {
                    refuse!(19);
                }
                let r = &self.socks[si].ring[1];
                let put = len.min(r.cap - r.len);
                if put == 0 {
                    log.rec(NOP);
                    return Ok(Answer::Again);
                }
                self.ring_push(si, 1, &data[off as usize..off as usize + put as usize]);
                log.rec(Rec { op: op::SYSWRITE, a: si as u8, c: put, ..NOP });
                Ok(Answer::Put(put))
            }
            Step::Drain { s, n } => {
                let si = self.sock(s)?;
                if n == 0 {
                    refuse!(19);
                }
                if self.socks[si].ring[1].len < n {
                    refuse!(17);
                }
                self.ring_take(si, 1, n, log);
                log.rec(Rec { op: op::DRAIN, a: si as u8, c: n, ..NOP });
                Ok(Answer::Done)
            }
            Step::Incref { g, s } => {
                self.idle(g)?;
                let si = self.sock(s)?;
                let l = &mut self.socks[si].lock;
                match lock::incref(*l)? {
                    None => {
                        log.rec(NOP);
                        Ok(Answer::No)
                    }
                    Some(n) => {
                        log.rec(Rec { op: op::LOCK, a: si as u8, w: *l, ..NOP });
                        *l = n;
                        Ok(Answer::Yes)
                    }
                }
            }
            Step::IncrefClose { g, s } => {
                let gi = self.idle(g)?;
                let si = self.sock(s)?;
                let l = &mut self.socks[si].lock;
                match lock::incref_close(*l)? {
                    None => {
                        log.rec(NOP);
                        Ok(Answer::No)
                    }
                    Some((n, r, w)) => {
                        log.rec(Rec { op: op::LOCK_ROW, a: si as u8, c: g, w: *l, ..NOP });
                        *l = n;
                        if r | w != 0 {
                            self.gor[gi] = owing(si, r, w);
                        }
                        Ok(Answer::Yes)
                    }
                }
            }
            Step::Decref { g, s } => {
                self.idle(g)?;
                let si = self.sock(s)?;
                let l = &mut self.socks[si].lock;
                let (n, a) = lock::decref(*l)?;
                log.rec(Rec { op: op::LOCK, a: si as u8, w: *l, ..NOP });
                *l = n;
                Ok(a)
            }
            Step::RwLock { g, s, side } => {
                let r = self.alive(g)?;
                let sd = side as usize;
                let again = r != IDLE;
                if again & ((r != row(RELOCK, sd, s as usize)) | (s > 255)) {
                    refuse!(2);
                }
                let f = (1 + side) & (again as u8).wrapping_neg();
                let si = self.sock(s)?;
                let l = &mut self.socks[si].lock;
                let (n, a) = lock::rwlock(*l, sd)?;
                log.rec(Rec { op: op::LOCK_ROW, a: si as u8, f, c: g, w: *l, ..NOP });
                *l = n;
                self.gor[g as usize] = if a == Answer::Wait { row(ACQUIRING, sd, si) } else { IDLE };
                Ok(a)
            }
            Step::RwUnlock { g, s, side } => {
                let gi = self.idle(g)?;
                let si = self.sock(s)?;
                let l = &mut self.socks[si].lock;
                let (n, a, owed) = lock::rwunlock(*l, side as usize)?;
                log.rec(Rec { op: op::LOCK_ROW, a: si as u8, c: g, w: *l, ..NOP });
                *l = n;
                // if no release is owed, the goroutine is idle again
                let owe = row(OWING, 0, si) | 1 << (16 + 20 * side as u32);
                self.gor[gi] = owe & (owed as u64).wrapping_neg();
                Ok(a)
            }
            Step::Acquire { g } => {
                let r = self.at(g, ACQUIRING)?;
                let (si, sd) = (row_obj(r), row_side(r));
                let count = &mut self.socks[si].count[sd];
                if *count > 0 {
                    *count -= 1;
                    self.gor[g as usize] = row(RELOCK, sd, si);
                    log.rec(Rec { op: op::ACQUIRE, c: g, ..NOP });
                    Ok(Answer::Yes)
                } else {
                    self.enqueue(si, sd, g as usize);
                    log.rec(Rec { op: op::ACQUIRE, f: 1, c: g, ..NOP });
                    Ok(Answer::Wait)
                }
            }
            Step::Release { g } => {
                let r = self.at(g, OWING)?;
                let si = row_obj(r);
                let sd = (row_owed(r).0 == 0) as usize;
                let count = &mut self.socks[si].count[sd];
                if *count == u32::MAX {
                    refuse!(6);
                }
                *count += 1;
                let front = self.dequeue(si, sd);
                let left = r - (1 << (16 + 20 * sd as u32));
                self.gor[g as usize] = if left >> 16 == 0 { IDLE } else { left };
                log.rec(Rec { op: op::RELEASE, c: g | (front as u32) << 16, w: r, ..NOP });
                Ok(Answer::Done)
            }
            Step::PollOpen { g, s } => {
                self.idle(g)?;
                let si = self.sock(s)?;
                if let Some(d) = self.free.pop() {
                    let x = &mut self.descs[d as usize];
                    log.word(x.deadline[1] as u64);
                    log.word(x.sock as u64);
                    log.rec(Rec {
                        op: op::OPEN_FREE,
                        words: 2,
                        a: d as u8,
                        f: x.flags,
                        c: x.words(),
                        w: x.deadline[0] as u64,
                    });
                    x.flags = 0;
                    x.word = [WNIL; 2];
                    x.deadline = [0; 2];
                    x.seq[0] += 1;
                    x.seq[1] += 1;
                    x.sock = si as u16;
                    Ok(Answer::Number(d as u32))
                } else {
                    let d = self.descs.len() as u32;
                    if d >= self.lim.desc {
                        refuse!(3);
                    }
                    self.descs.push(Desc {
                        deadline: [0; 2],
                        seq: [1; 2],
                        fdseq: 1,
                        word: [WNIL; 2],
                        sock: si as u16,
                        flags: 0,
                    });
                    log.rec(Rec { op: op::OPEN_NEW, ..NOP });
                    Ok(Answer::Number(d))
                }
            }
            Step::PollClose { g, d } => {
                self.idle(g)?;
                let di = self.open(d)?;
                let x = &mut self.descs[di];
                if x.flags & CLOSING == 0 {
                    refuse!(9);
                }
                if x.flags & (INSIDE[0] | INSIDE[1]) != 0 {
                    refuse!(11);
                }
                x.fdseq += 1;
                x.flags |= FREE;
                self.free.push(d as u16);
                log.rec(Rec { op: op::CLOSE, a: di as u8, ..NOP });
                Ok(Answer::Done)
            }
            Step::PollReset { g, d, side } => {
                self.idle(g)?;
                let di = self.open(d)?;
                let sd = side as usize;
                let x = &mut self.descs[di];
                let code = x.check(sd);
                if code != 0 {
                    log.rec(NOP);
                    return Ok(Answer::Code(code));
                }
                if x.flags & INSIDE[sd] != 0 {
                    refuse!(11);
                }
                log.rec(Rec { op: op::RESET, a: di as u8, f: side, c: x.word[sd] as u32, ..NOP });
                x.word[sd] = WNIL;
                Ok(Answer::Code(0))
            }
            Step::WaitBegin { g, d, side } => {
                let gi = self.idle(g)?;
                let di = self.open(d)?;
                let sd = side as usize;
                let x = &mut self.descs[di];
                let code = x.check(sd);
                if code != 0 {
                    log.rec(NOP);
                    return Ok(Answer::Code(code));
                }
                if x.flags & INSIDE[sd] != 0 {
                    refuse!(8);
                }
                x.flags |= INSIDE[sd];
                self.gor[gi] = row(ENTERING, sd, di);
                log.rec(Rec { op: op::ENTER, a: di as u8, f: side, c: g, ..NOP });
                Ok(Answer::Code(0))
            }
            Step::BlockArm { g } => {
                let r = self.at(g, ENTERING)?;
                let (di, sd) = (row_obj(r), row_side(r));
                let x = &mut self.descs[di];
                let old = x.word[sd];
                let ready = old == WREADY;
                if ready {
                    x.word[sd] = WNIL;
                    x.flags &= !INSIDE[sd];
                    self.gor[g as usize] = IDLE;
                } else {
                    x.word[sd] = WWAIT;
                    self.gor[g as usize] = row(ARMED, sd, di);
                }
                log.rec(Rec { op: op::ROW_WORD, f: ready as u8, c: g | (old as u32) << 16, w: r, ..NOP });
                Ok(if ready { Answer::Code(0) } else { Answer::Wait })
            }
            Step::BlockCheck { g } => {
                let r = self.at(g, ARMED)?;
                let (di, sd) = (row_obj(r), row_side(r));
                let code = self.descs[di].check(sd);
                self.gor[g as usize] = row(if code == 0 { PARKING } else { SWAPPING }, sd, di);
                log.rec(Rec { op: op::ROW, c: g, w: r, ..NOP });
                Ok(Answer::Code(code))
            }
            Step::ParkCommit { g } => {
                let r = self.at(g, PARKING)?;
                let (di, sd) = (row_obj(r), row_side(r));
                let word = &mut self.descs[di].word[sd];
                if *word == WWAIT {
                    *word = WGOR + g as u16;
                    self.waiters += 1;
                    self.gor[g as usize] = row(PARKED, sd, di);
                    log.rec(Rec { op: op::PARK, c: g, w: r, ..NOP });
                    Ok(Answer::Yes)
                } else {
                    self.gor[g as usize] = row(SWAPPING, sd, di);
                    log.rec(Rec { op: op::ROW, c: g, w: r, ..NOP });
                    Ok(Answer::No)
                }
            }
            Step::BlockSwap { g } => {
                let r = self.at(g, SWAPPING)?;
                let (di, sd) = (row_obj(r), row_side(r));
                let x = &mut self.descs[di];
                let old = x.word[sd];
                x.word[sd] = WNIL;
                let ready = old == WREADY;
                if ready {
                    x.flags &= !INSIDE[sd];
                    self.gor[g as usize] = IDLE;
                } else {
                    self.gor[g as usize] = row(CHECKING, sd, di);
                }
                log.rec(Rec { op: op::ROW_WORD, f: ready as u8, c: g | (old as u32) << 16, w: r, ..NOP });
                Ok(if ready { Answer::Yes } else { Answer::No })
            }
            Step::WaitCheck { g } => {
                let r = self.at(g, CHECKING)?;
                let (di, sd) = (row_obj(r), row_side(r));
                let x = &mut self.descs[di];
                let code = x.check(sd);
                let ended = code != 0;
                log.rec(Rec { op: op::ROW_WORD, f: ended as u8, c: g | (x.word[sd] as u32) << 16, w: r, ..NOP });
                if ended {
                    x.flags &= !INSIDE[sd];
                    self.gor[g as usize] = IDLE;
                } else {
                    self.gor[g as usize] = row(ENTERING, sd, di);
                }
                Ok(Answer::Code(code))
            }
            Step::SetDeadline { g, d, mode, t } => {
                self.idle(g)?;
                let di = self.open(d)?;
                self.set_deadline(di, mode, t, log);
                Ok(Answer::Done)
            }
            Step::Evict { g, d } => {
                self.idle(g)?;
                let di = self.open(d)?;
                let x = &mut self.descs[di];
                if x.flags & CLOSING != 0 {
                    refuse!(10);
                }
                let old = x.flags;
                let words = x.words();
                x.flags = old & !(RUN[0] | RUN[1]) | CLOSING;
                x.seq[0] += 1;
                x.seq[1] += 1;
                self.unblock(di, 0, false);
                self.unblock(di, 1, false);
                let mut f = old & (RUN[0] | RUN[1]);
                let mut n = 0;
                for sd in 0..2 {
                    if old & RUN[sd] != 0 && self.stop(di, sd, log) {
                        f |= 1 << sd;
                        n += 2;
                    }
                }
                log.rec(Rec { op: op::EVICT, words: n, a: di as u8, f, c: words, w: 0 });
                Ok(Answer::Done)
            }
            Step::PollEvent { d, tag, mode, err } => {
                let Some(x) = self.descs.get_mut(d as usize) else { refuse!(5) };
                if x.flags & FREE != 0 || x.fdseq != tag {
                    log.rec(NOP);
                    return Ok(Answer::Stale);
                }
                log.rec(Rec { op: op::EVENT, a: d as u8, f: x.flags, c: x.words(), ..NOP });
                x.flags = x.flags & !EVERR | if err { EVERR } else { 0 };
                if mode & MODE_R != 0 {
                    self.unblock(d as usize, 0, true);
                }
                if mode & MODE_W != 0 {
                    self.unblock(d as usize, 1, true);
                }
                Ok(Answer::Done)
            }
            Step::Tick { t } => {
                if t < self.clock {
                    refuse!(12);
                }
                log.rec(Rec { op: op::TICK, w: self.clock as u64, ..NOP });
                self.clock = t;
                Ok(Answer::Done)
            }
            Step::Pop => {
                match self.heap.entries().first() {
                    Some(e) if e.when <= self.clock => {}
                    _ => refuse!(13),
                }
                if self.firings.len() >= 2 * self.lim.desc as usize {
                    refuse!(14);
                }
                let (e, q) = self.heap.remove(0);
                let (d, sd) = (e.id as usize / 2, e.id as usize % 2);
                let x = &self.descs[d];
                let func = if sd == 1 {
                    F_WRITE
                } else if x.combo() {
                    F_BOTH
                } else {
                    F_READ
                };
                self.firings.push_back(Firing { seq: x.seq[sd], arm: e.arm, d: d as u16, side: sd as u8, func });
                log.rec(Rec { op: op::POP, c: q as u32, ..NOP });
                Ok(Answer::Done)
            }
            Step::Fire { i } => {
                if i as usize >= self.firings.len() {
                    refuse!(15);
                }
                let f = self.firings.remove(i as usize).unwrap();
                log.word(f.arm);
                log.word(i as u64 | (f.side as u64) << 32 | (f.func as u64) << 33);
                let di = f.d as usize;
                let x = &mut self.descs[di];
                let lead = (f.func == F_WRITE) as usize;
                if x.seq[lead] != f.seq {
                    log.rec(Rec { op: op::FIRE_STALE, words: 2, a: di as u8, f: 0, c: 0, w: f.seq });
                    return Ok(Answer::Stale);
                }
                // under combo both deadlines are one number, so one word restores them
                log.word(x.deadline[lead] as u64);
                log.rec(Rec { op: op::FIRE, words: 3, a: di as u8, f: 0, c: x.words(), w: f.seq });
                if f.func != F_WRITE {
                    self.descs[di].deadline[0] = -1;
                    self.unblock(di, 0, false);
                }
                if f.func != F_READ {
                    self.descs[di].deadline[1] = -1;
                    self.unblock(di, 1, false);
                }
                Ok(Answer::Done)
            }
        }
    }

    #[inline(never)]
    fn set_deadline<L: Log>(&mut self, di: usize, mode: u8, t: i64, log: &mut L) {
        let clock = self.clock;
        let x = &mut self.descs[di];
        if x.flags & CLOSING != 0 {
            log.rec(NOP);
            return;
        }
        let to = if t > 0 { clock.saturating_add(t) } else { t };
        let old = x.deadline;
        let words = x.words();
        let combo0 = x.combo();
        // bits: 0,1 old running marks; 2,3 sequence raised; 4,5 removed; 6,7 inserted
        let mut f = x.flags >> 2 & 3;
        if mode & MODE_R != 0 {
            x.deadline[0] = to;
        }
        if mode & MODE_W != 0 {
            x.deadline[1] = to;
        }
        let combo = x.combo();
        log.word(old[1] as u64);
        let mut n = 1;
        for sd in 0..2 {
            let x = &mut self.descs[di];
            let wanted = x.deadline[sd] > 0 && !(sd == 1 && combo);
            if x.flags & RUN[sd] == 0 {
                if wanted {
                    x.flags |= RUN[sd];
                    f |= 64 << sd;
                    self.arm(di, sd);
                }
            } else if x.deadline[sd] != old[sd] || combo != combo0 {
                x.seq[sd] += 1;
                f |= 4 << sd;
                if !wanted {
                    x.flags &= !RUN[sd];
                }
                if self.stop(di, sd, log) {
                    f |= 16 << sd;
                    n += 2;
                }
                if wanted {
                    f |= 64 << sd;
                    self.arm(di, sd);
                }
            }
        }
        log.rec(Rec { op: op::DEADLINE, words: n, a: di as u8, f, c: words, w: old[0] as u64 });
        for sd in 0..2 {
            if self.descs[di].deadline[sd] < 0 {
                self.unblock(di, sd, false);
            }
        }
    }

    // ---- undo ----

    /// Undoes the last record of the log. Returns false if the log has none.
    #[inline]
    pub fn undo(&mut self, log: &mut UndoLog) -> bool {
        let Some(r) = log.take() else { return false };
        let a = r.a as usize;
        match r.op {
            op::NOP => {}
            op::SPAWN => {
                self.gor.pop();
            }
            op::EXIT => self.gor[r.c as usize] = IDLE,
            op::SOCKOPEN => {
                self.socks.pop();
            }
            op::ARRIVE => self.socks[a].ring[0].len -= r.c,
            op::PEERCLOSE => self.socks[a].peer_closed = false,
            op::SYSWRITE => self.socks[a].ring[1].len -= r.c,
            op::SYSREAD | op::DRAIN => {
                let v = &mut log.bytes.v;
                let from = v.len() - r.c as usize;
                self.ring_untake(a, (r.op == op::DRAIN) as usize, &v[from..]);
                v.truncate(from);
            }
            op::LOCK => self.socks[a].lock = r.w,
            op::LOCK_ROW => {
                self.socks[a].lock = r.w;
                self.gor[r.c as usize] = if r.f == 0 { IDLE } else { row(RELOCK, r.f as usize - 1, a) };
            }
            op::ACQUIRE => {
                let g = r.c as usize;
                let old = self.gor[g];
                let (si, sd) = (row_obj(old), row_side(old));
                if r.f == 0 {
                    self.socks[si].count[sd] += 1;
                    self.gor[g] = row(ACQUIRING, sd, si);
                } else {
                    self.unenqueue(si, sd, g);
                }
            }
            op::RELEASE => {
                let g = r.c as u16 as usize;
                let front = (r.c >> 16) as u16;
                let si = row_obj(r.w);
                let sd = (row_owed(r.w).0 == 0) as usize;
                self.gor[g] = r.w;
                if front != NIL16 {
                    self.undequeue(si, sd, front);
                }
                self.socks[si].count[sd] -= 1;
            }
            op::OPEN_NEW => {
                self.descs.pop();
            }
            op::OPEN_FREE => {
                let sock = log.words.pop() as u16;
                let wd = log.words.pop() as i64;
                let x = &mut self.descs[a];
                x.deadline = [r.w as i64, wd];
                x.sock = sock;
                x.flags = r.f;
                x.word = [r.c as u16, (r.c >> 16) as u16];
                x.seq[0] -= 1;
                x.seq[1] -= 1;
                self.free.push(a as u16);
            }
            op::CLOSE => {
                self.free.pop();
                let x = &mut self.descs[a];
                x.flags &= !FREE;
                x.fdseq -= 1;
            }
            op::RESET => self.descs[a].word[r.f as usize & 1] = r.c as u16,
            op::ENTER => {
                self.descs[a].flags &= !INSIDE[r.f as usize & 1];
                self.gor[r.c as usize] = IDLE;
            }
            op::ROW => self.gor[r.c as usize] = r.w,
            op::ROW_WORD => {
                let (di, sd) = (row_obj(r.w), row_side(r.w));
                let x = &mut self.descs[di];
                x.word[sd] = (r.c >> 16) as u16;
                if r.f != 0 {
                    x.flags |= INSIDE[sd];
                }
                self.gor[r.c as u16 as usize] = r.w;
            }
            op::PARK => {
                let (di, sd) = (row_obj(r.w), row_side(r.w));
                self.descs[di].word[sd] = WWAIT;
                self.waiters -= 1;
                self.gor[r.c as usize] = r.w;
            }
            op::DEADLINE => {
                self.restore_words(a, r.c);
                for sd in (0..2).rev() {
                    if r.f & 64 << sd != 0 {
                        self.heap.uninsert((2 * a + sd) as u16);
                        self.next_arm -= 1;
                    }
                    if r.f & 16 << sd != 0 {
                        // the entry's time is the old deadline; the write deadline was pushed first, below the other words
                        let pq = log.words.pop();
                        let arm = log.words.pop();
                        let when = if sd == 0 { r.w as i64 } else { log.words.v[log.words.v.len() - (r.words as usize - 2)] as i64 };
                        self.heap.unremove(
                            pq as u16 as usize,
                            (pq >> 16) as usize,
                            Entry { when, arm, id: (2 * a + sd) as u16 },
                        );
                    }
                }
                let wd = log.words.pop() as i64;
                let x = &mut self.descs[a];
                x.deadline = [r.w as i64, wd];
                x.seq[0] -= (r.f >> 2 & 1) as u64;
                x.seq[1] -= (r.f >> 3 & 1) as u64;
                x.flags = x.flags & !(RUN[0] | RUN[1]) | (r.f & 3) << 2;
            }
            op::EVICT => {
                for sd in (0..2).rev() {
                    if r.f & 1 << sd != 0 {
                        self.unstop(a, sd, &mut log.words);
                    }
                }
                let x = &mut self.descs[a];
                x.flags = x.flags & !CLOSING | r.f & (RUN[0] | RUN[1]);
                x.seq[0] -= 1;
                x.seq[1] -= 1;
                self.restore_words(a, r.c);
            }
            op::EVENT => {
                self.restore_words(a, r.c);
                self.descs[a].flags = r.f;
            }
            op::TICK => self.clock = r.w as i64,
            op::POP => {
                let f = self.firings.pop_back().unwrap();
                let (d, sd) = (f.d as usize, f.side as usize);
                let when = self.descs[d].deadline[sd];
                self.heap.unremove(0, r.c as usize, Entry { when, arm: f.arm, id: (2 * d + sd) as u16 });
            }
            op::FIRE | op::FIRE_STALE => {
                let fired = r.op == op::FIRE;
                let dl = if fired { log.words.pop() as i64 } else { 0 };
                let p = log.words.pop();
                let arm = log.words.pop();
                let f = Firing {
                    seq: r.w,
                    arm,
                    d: r.a as u16,
                    side: (p >> 32 & 1) as u8,
                    func: (p >> 33) as u8,
                };
                if fired {
                    if f.func != F_WRITE {
                        self.descs[a].deadline[0] = dl;
                    }
                    if f.func != F_READ {
                        self.descs[a].deadline[1] = dl;
                    }
                    self.restore_words(a, r.c);
                }
                self.firings.insert(p as u32 as usize, f);
            }
            _ => unreachable!(),
        }
        true
    }

    // ---- reads ----

    /// A cell's value as a number, whose meaning depends on the cell's kind. None means absent.
    #[inline(always)]
    pub fn cell(&self, c: Cell) -> Option<u64> {
        let n = c.num as usize;
        match c.kind {
            1 => Some(self.clock as u64),
            2 => Some(self.waiters as u64),
            3 => Some(self.heap.entries().len() as u64),
            4 => Some(self.firings.len() as u64),
            5 => self.heap.entries().first().map(|e| e.when as u64),
            6 => self.gor.get(n).map(|&r| if row_status(r) == QUEUED { r & 0xFFFF } else { r }),
            7 => self.socks.get(n).map(|s| s.lock),
            8 | 9 => self.socks.get(n).map(|s| s.count[c.kind as usize - 8] as u64),
            10 | 11 => self.socks.get(n).map(|s| s.ring[c.kind as usize - 10].len as u64),
            12 | 13 => self.descs.get(n).map(|d| d.word[c.kind as usize - 12] as u64),
            14 | 15 => self.descs.get(n).map(|d| d.deadline[c.kind as usize - 14] as u64),
            16 | 17 => self.descs.get(n).map(|d| d.seq[c.kind as usize - 16]),
            18 => self.descs.get(n).map(|d| d.fdseq),
            _ => self.descs.get(n).map(|d| {
                (d.flags & (CLOSING | EVERR)) as u64
                    | ((d.deadline[0] < 0) as u64) << 2
                    | ((d.deadline[1] < 0) as u64) << 3
            }),
        }
    }
}
