//! Reading recordings of version 1 whose lines are in the compact spelling of `bench/shapes.awk`.

use crate::step::*;

pub struct Recording {
    pub lim: Limits,
    pub steps: Vec<Step>,
    /// the bytes of arrive and syswrite
    pub data: Vec<u8>,
}

// ---- the scanner ------------------------------------------------------------------------------

const HEX: [u8; 256] = {
    let mut t = [255u8; 256];
    let mut i = 0;
    while i < 10 {
        t[b'0' as usize + i] = i as u8;
        i += 1;
    }
    i = 0;
    while i < 6 {
        t[b'a' as usize + i] = 10 + i as u8;
        t[b'A' as usize + i] = 10 + i as u8;
        i += 1;
    }
    t
};

/// A name's first eight bytes as a little-endian number, shorter ones padded with zeros.
const fn head8(name: &[u8]) -> u64 {
    let mut v = 0u64;
    let mut i = 0;
    while i < name.len() && i < 8 {
        v |= (name[i] as u64) << (8 * i);
        i += 1;
    }
    v
}

const fn slot(head: u64, mul: u64) -> usize {
    (head.wrapping_mul(mul) >> 57) as usize
}

/// A multiplier that spreads the 30 names over 128 slots without collision, found at build time.
const MUL: u64 = {
    let mut mul = 0x9E37_79B9_7F4A_7C15u64;
    loop {
        let mut used = [false; 128];
        let mut ok = true;
        let mut i = 0;
        while i < 30 {
            let s = slot(head8(KINDS[i].as_bytes()), mul);
            if used[s] {
                ok = false;
                break;
            }
            used[s] = true;
            i += 1;
        }
        if ok {
            break mul;
        }
        mul = mul.wrapping_mul(0xD134_2543_DE82_EF95).wrapping_add(2);
    }
};

/// A slot: a number made of the name and its closing quotation mark, a mask of their bytes,
/// their length, and the kind (0: none).
#[derive(Clone, Copy)]
struct Slot {
    name: u128,
    mask: u128,
    len: u8,
    kind: u8,
}

static SLOTS: [Slot; 128] = {
    let mut t = [Slot { name: 0, mask: 0, len: 0, kind: 0 }; 128];
    let mut i = 0;
    while i < 30 {
        let name = KINDS[i].as_bytes();
        let mut v = 0u128;
        let mut j = 0;
        while j < name.len() {
            v |= (name[j] as u128) << (8 * j);
            j += 1;
        }
        v |= (b'"' as u128) << (8 * j);
        let len = j as u8 + 1;
        let mask = (1u128 << (8 * len)) - 1;
        t[slot(head8(name), MUL)] = Slot { name: v, mask, len, kind: i as u8 + 1 };
        i += 1;
    }
    t
};

struct Scan<'a> {
    b: &'a [u8],
    p: usize,
}

impl Scan<'_> {
    #[inline(always)]
    fn peek(&self) -> u8 {
        if self.p < self.b.len() {
            self.b[self.p]
        } else {
            0
        }
    }
    #[inline(always)]
    fn eat(&mut self, c: u8) -> Option<()> {
        if self.peek() == c {
            self.p += 1;
            Some(())
        } else {
            None
        }
    }
    /// The kind after `["`, up to and including its closing quotation mark.
    #[inline(always)]
    fn kind(&mut self) -> Option<u8> {
        let w = u128::from_le_bytes(self.b.get(self.p..self.p + 16)?.try_into().ok()?);
        let head = w as u64;
        // `low` masks the bytes before the first quotation mark among the first eight bytes
        let x = head ^ 0x2222_2222_2222_2222;
        let z = x.wrapping_sub(0x0101_0101_0101_0101) & !x & 0x8080_8080_8080_8080;
        let low = (z & z.wrapping_neg()).wrapping_sub(1) >> 7;
        // z = 0 leaves all eight: the shift must not take the upper bits away
        let low = if z == 0 { u64::MAX } else { low };
        let s = &SLOTS[slot(head & low, MUL)];
        if w & s.mask != s.name || s.kind == 0 {
            return None;
        }
        self.p += s.len as usize;
        Some(s.kind)
    }
    /// A number in plain digits. Up to seven digits are read at once, without a branch on
    /// their count.
    #[inline(always)]
    fn u64(&mut self) -> Option<u64> {
        if let Some(eight) = self.b.get(self.p..self.p + 8) {
            let t = u64::from_le_bytes(eight.try_into().unwrap()) ^ 0x3030_3030_3030_3030;
            let other = (t.wrapping_add(0x7676_7676_7676_7676) | t) & 0x8080_8080_8080_8080;
            let n = other.trailing_zeros() / 8;
            // no leading zero
            if (n == 0) | ((n > 1) & (t as u8 == 0)) {
                return None;
            }
            if n < 8 {
                let v = t << (64 - 8 * n);
                let v = v.wrapping_mul(10).wrapping_add(v >> 8);
                let a = (v & 0x0000_00FF_0000_00FF).wrapping_mul(0x000F_4240_0000_0064);
                let b = (v >> 16 & 0x0000_00FF_0000_00FF).wrapping_mul(0x0000_2710_0000_0001);
                self.p += n as usize;
                return Some(a.wrapping_add(b) >> 32);
            }
        }
        self.long()
    }
    #[inline(never)]
    fn long(&mut self) -> Option<u64> {
        let mut c = self.peek().wrapping_sub(b'0');
        if c > 9 {
            return None;
        }
        let mut v = c as u64;
        self.p += 1;
        let first = self.p;
        loop {
            c = self.peek().wrapping_sub(b'0');
            if c > 9 {
                break;
            }
            v = v.wrapping_mul(10).wrapping_add(c as u64);
            self.p += 1;
        }
        // nineteen digits never overflow; more, or a leading zero, are refused
        let more = self.p - first;
        if more > 18 || (more != 0 && self.b[first - 1] == b'0') {
            return None;
        }
        Some(v)
    }
    #[inline(always)]
    fn u32(&mut self) -> Option<u32> {
        self.eat(b',')?;
        u32::try_from(self.u64()?).ok()
    }
    #[inline(always)]
    fn i64(&mut self) -> Option<i64> {
        self.eat(b',')?;
        let neg = self.peek() == b'-';
        if neg {
            self.p += 1;
        }
        let v = i64::try_from(self.u64()?).ok()?;
        if neg {
            if v == 0 {
                return None;
            }
            return Some(-v);
        }
        Some(v)
    }
    #[inline(always)]
    fn side(&mut self) -> Option<u8> {
        const READ: u32 = u32::from_le_bytes(*b",\"r\"");
        const WRITE: u32 = u32::from_le_bytes(*b",\"w\"");
        let t = u32::from_le_bytes(self.b.get(self.p..self.p + 4)?.try_into().ok()?);
        self.p += 4;
        if (t != READ) & (t != WRITE) {
            return None;
        }
        Some((t == WRITE) as u8)
    }
    #[inline(always)]
    fn mode(&mut self) -> Option<u8> {
        let t = self.b.get(self.p..self.p + 5)?;
        match (&t[..3], t[3], t[4]) {
            (b",\"r", b'"', _) => {
                self.p += 4;
                Some(MODE_R)
            }
            (b",\"w", b'"', _) => {
                self.p += 4;
                Some(MODE_W)
            }
            (b",\"r", b'w', b'"') => {
                self.p += 5;
                Some(MODE_R | MODE_W)
            }
            _ => None,
        }
    }
    #[inline(always)]
    fn hex(&mut self, data: &mut Vec<u8>) -> Option<(u64, u32)> {
        self.eat(b',')?;
        self.eat(b'"')?;
        let off = data.len();
        let rest = &self.b[self.p..];
        for two in rest.chunks_exact(2) {
            let (h, l) = (HEX[two[0] as usize], HEX[two[1] as usize]);
            if h | l == 255 || h == 255 {
                break;
            }
            data.push(h << 4 | l);
        }
        let n = data.len() - off;
        self.p += 2 * n;
        if 2 * n > MAX_HEX || self.eat(b'"').is_none() {
            data.truncate(off);
            return None;
        }
        Some((off as u64, n as u32))
    }

    /// A step's line in compact spelling, up to and including its `]`.
    #[inline(always)]
    fn step(&mut self, data: &mut Vec<u8>) -> Option<Step> {
        self.eat(b'[')?;
        self.eat(b'"')?;
        let step = match self.kind()? {
            1 => Step::Spawn,
            2 => Step::Exit { g: self.u32()? },
            3 => Step::SockOpen { rc: self.u32()?, wc: self.u32()? },
            4 => {
                let s = self.u32()?;
                let (off, len) = self.hex(data)?;
                Step::Arrive { s, off, len }
            }
            5 => Step::PeerClose { s: self.u32()? },
            6 => Step::SysRead { g: self.u32()?, s: self.u32()?, n: self.u32()? },
            7 => {
                let (g, s) = (self.u32()?, self.u32()?);
                let (off, len) = self.hex(data)?;
                Step::SysWrite { g, s, off, len }
            }
            8 => Step::Drain { s: self.u32()?, n: self.u32()? },
            9 => Step::Incref { g: self.u32()?, s: self.u32()? },
            10 => Step::IncrefClose { g: self.u32()?, s: self.u32()? },
            11 => Step::Decref { g: self.u32()?, s: self.u32()? },
            12 => Step::RwLock { g: self.u32()?, s: self.u32()?, side: self.side()? },
            13 => Step::RwUnlock { g: self.u32()?, s: self.u32()?, side: self.side()? },
            14 => Step::Acquire { g: self.u32()? },
            15 => Step::Release { g: self.u32()? },
            16 => Step::PollOpen { g: self.u32()?, s: self.u32()? },
            17 => Step::PollClose { g: self.u32()?, d: self.u32()? },
            18 => Step::PollReset { g: self.u32()?, d: self.u32()?, side: self.side()? },
            19 => Step::WaitBegin { g: self.u32()?, d: self.u32()?, side: self.side()? },
            20 => Step::BlockArm { g: self.u32()? },
            21 => Step::BlockCheck { g: self.u32()? },
            22 => Step::ParkCommit { g: self.u32()? },
            23 => Step::BlockSwap { g: self.u32()? },
            24 => Step::WaitCheck { g: self.u32()? },
            25 => Step::SetDeadline { g: self.u32()?, d: self.u32()?, mode: self.mode()?, t: self.i64()? },
            26 => Step::Evict { g: self.u32()?, d: self.u32()? },
            27 => {
                let d = self.u32()?;
                self.eat(b',')?;
                let tag = self.u64()?;
                let mode = self.mode()?;
                let err = match self.u32()? {
                    0 => false,
                    1 => true,
                    _ => return None,
                };
                Step::PollEvent { d, tag, mode, err }
            }
            28 => {
                let t = self.i64()?;
                if t < 0 {
                    return None;
                }
                Step::Tick { t }
            }
            29 => Step::Pop,
            _ => Step::Fire { i: self.u32()? },
        };
        self.eat(b']')?;
        Some(step)
    }
}

// ---- the recording ------------------------------------------------------------------------------

/// The number after `"KEY":` in the header's line.
fn limit(line: &[u8], key: &str, most: u32) -> Option<u32> {
    let line = std::str::from_utf8(line).ok()?;
    let rest = &line[line.find(&format!("\"{key}\":"))? + key.len() + 3..];
    let end = rest.find([',', '}'])?;
    rest[..end].trim().parse().ok().filter(|n| (1..=most).contains(n))
}

fn header(line: &[u8]) -> Option<Limits> {
    limit(line, "netrev", 1)?;
    Some(Limits {
        gor: limit(line, "gor", MAX_GOR)?,
        sock: limit(line, "sock", MAX_SOCK)?,
        desc: limit(line, "desc", MAX_DESC)?,
        buf: limit(line, "buf", MAX_BUF)?,
    })
}

/// This many spaces follow the text, because looking up a kind reads sixteen bytes.
pub const PADDING: usize = 16;

/// Reads the header's line and the steps' lines; the padding comes last. If a line is neither, returns the first such line's number.
pub fn read(padded: &[u8]) -> Result<Recording, usize> {
    let text = &padded[..padded.len() - PADDING];
    let end = text.iter().position(|&c| c == b'\n').unwrap_or(text.len());
    let lim = header(&text[..end]).ok_or(1usize)?;
    // a step's line has at least eight bytes; most have more than twenty
    let mut steps = Vec::with_capacity((text.len() / 18).min(MAX_STEPS));
    let mut data = Vec::new();
    let mut s = Scan { b: padded, p: end + 1 };
    while s.p < text.len() {
        let line = steps.len() + 2;
        steps.push(s.step(&mut data).filter(|_| steps.len() < MAX_STEPS).ok_or(line)?);
        if s.p < text.len() {
            s.eat(b'\n').ok_or(line)?;
        }
    }
    Ok(Recording { lim, steps, data })
}
