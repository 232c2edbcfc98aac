//! Steps, limits, cells and their names.

/// The four limits of a recording's header.
#[derive(Clone, Copy, PartialEq, Eq, Debug)]
pub struct Limits {
    pub gor: u32,
    pub sock: u32,
    pub desc: u32,
    pub buf: u32,
}

pub const MAX_GOR: u32 = 4096;
pub const MAX_SOCK: u32 = 256;
pub const MAX_DESC: u32 = 256;
pub const MAX_BUF: u32 = 65_536;
pub const MAX_STEPS: usize = 1_000_000;
pub const MAX_HEX: usize = 131_072;

/// Mode bits: 1 reading, 2 writing.
pub const MODE_R: u8 = 1;
pub const MODE_W: u8 = 2;

/// A recorded step, 24 bytes. Bytes of a step lie in the recording's arena.
#[derive(Clone, Copy, PartialEq, Eq, Debug)]
pub enum Step {
    Spawn,
    Exit { g: u32 },
    SockOpen { rc: u32, wc: u32 },
    Arrive { s: u32, off: u64, len: u32 },
    PeerClose { s: u32 },
    SysRead { g: u32, s: u32, n: u32 },
    SysWrite { g: u32, s: u32, off: u64, len: u32 },
    Drain { s: u32, n: u32 },
    Incref { g: u32, s: u32 },
    IncrefClose { g: u32, s: u32 },
    Decref { g: u32, s: u32 },
    RwLock { g: u32, s: u32, side: u8 },
    RwUnlock { g: u32, s: u32, side: u8 },
    Acquire { g: u32 },
    Release { g: u32 },
    PollOpen { g: u32, s: u32 },
    PollClose { g: u32, d: u32 },
    PollReset { g: u32, d: u32, side: u8 },
    WaitBegin { g: u32, d: u32, side: u8 },
    BlockArm { g: u32 },
    BlockCheck { g: u32 },
    ParkCommit { g: u32 },
    BlockSwap { g: u32 },
    WaitCheck { g: u32 },
    SetDeadline { g: u32, d: u32, mode: u8, t: i64 },
    Evict { g: u32, d: u32 },
    PollEvent { d: u32, tag: u64, mode: u8, err: bool },
    Tick { t: i64 },
    Pop,
    Fire { i: u32 },
}

/// Kind names; kind k has the name `KINDS[k - 1]`.
pub const KINDS: [&str; 30] = [
    "spawn", "exit", "sockopen", "arrive", "peerclose", "sysread", "syswrite", "drain", "incref",
    "increfclose", "decref", "rwlock", "rwunlock", "acquire", "release", "pollopen", "pollclose",
    "pollreset", "waitbegin", "blockarm", "blockcheck", "parkcommit", "blockswap", "waitcheck",
    "setdeadline", "evict", "pollevent", "tick", "pop", "fire",
];

/// A cell: kind 1 to 19 and, from kind 6 on, a number.
#[derive(Clone, Copy, PartialEq, Eq, Debug)]
pub struct Cell {
    pub kind: u8,
    pub num: u32,
}

/// A step's answer.
#[derive(Clone, Copy, PartialEq, Eq, Debug)]
pub enum Answer {
    Done,
    Yes,
    No,
    Wait,
    Last,
    NotLast,
    Eof,
    Again,
    Stale,
    Number(u32),
    Code(u8),
    Got(u32),
    Put(u32),
}

/// A refusal's number.
#[derive(Clone, Copy, PartialEq, Eq, Debug)]
pub struct Refusal(pub u8);
