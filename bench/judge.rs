// A judge of book texts that shares no code with the crates and follows docs/RULES.md and docs/FORMATS.md directly, and a
// comparison of the proved check with it on random and damaged texts.
use std::collections::BTreeMap;
use std::time::Instant;

mod proved {
    extern "C" {
        fn jertsola_check_fault(text: *const u8, len: usize) -> u64;
        fn jertsola_check_place(text: *const u8, len: usize) -> usize;
        fn jertsola_check_rows(text: *const u8, len: usize) -> usize;
    }

    pub fn fault(text: &[u8]) -> u64 {
        unsafe { jertsola_check_fault(text.as_ptr(), text.len()) }
    }

    // The fault's number or 0, its place or the length, and the rows or 0.
    pub fn check(text: &[u8]) -> (u64, usize, usize) {
        let (place, rows) = unsafe {
            (jertsola_check_place(text.as_ptr(), text.len()), jertsola_check_rows(text.as_ptr(), text.len()))
        };
        (fault(text), place, rows)
    }
}

const CAP: i64 = 9_999_999;
const MOST: u32 = 99_999;

fn unsigned(bytes: &[u8]) -> u32 {
    u32::from_be_bytes([bytes[0], bytes[1], bytes[2], bytes[3]])
}

fn signed(bytes: &[u8]) -> i64 {
    unsigned(bytes) as i32 as i64
}

// Each gives the fault of a whole command's fields, or 0.
fn bid_fault(c: &[u8]) -> u64 {
    if c[1] > 31 {
        return 23;
    }
    let mut broken = c[2] > 1;
    let mut offered = false;
    for q in c[3..51].chunks(12) {
        let (low, high, price) = (unsigned(q), unsigned(&q[4..]), signed(&q[8..]));
        broken |= low > high || high > MOST || price.abs() > CAP || (high == 0 && (low != 0 || price != 0));
        offered |= high > 0;
    }
    if broken || !offered { 24 } else { 0 }
}

fn need_fault(c: &[u8]) -> u64 {
    if c[1] > 31 {
        return 23;
    }
    let mut broken = c[2] > 1 || c[3] > 1;
    let mut wanted = false;
    for q in c[4..36].chunks(8) {
        let (high, price) = (unsigned(q), signed(&q[4..]));
        broken |= high > MOST || price.abs() > CAP || (price != 0 && (high == 0 || c[3] == 0));
        wanted |= high > 0;
    }
    if broken || !wanted { 24 } else { 0 }
}

fn border_fault(c: &[u8]) -> u64 {
    if c[1] > 31 || c[2] > 31 || c[1] == c[2] {
        return 23;
    }
    let broken = ![1, 2, 4].contains(&c[3]) || c[4..36].chunks(4).any(|q| unsigned(q) > MOST);
    if broken { 24 } else { 0 }
}

fn judge(text: &[u8]) -> (u64, usize, usize) {
    let (mut at, mut rows, mut due, mut group) = (0, 0, 0, 0);
    let mut areas: Vec<u8> = Vec::new();
    loop {
        let Some(byte) = text.get(at) else { return (11, text.len(), 0) };
        let size = match byte {
            0x42 => 51,
            0x45 => 2,
            0x4E | 0x4C => 36,
            0x53 => 1,
            _ => return (12, at, 0),
        };
        if text.len() - at < size {
            return (11, at, 0);
        }
        let c = &text[at..at + size];
        if due > 0 && *byte != 0x42 {
            return (21, rows, 0);
        }
        if *byte == 0x53 {
            return (0, at + 1, rows);
        }
        if rows == 1_024 {
            return (22, 1_024, 0);
        }
        let fault = match byte {
            0x42 => bid_fault(c),
            0x45 => if (2..=8).contains(&c[1]) { 0 } else { 24 },
            0x4E => need_fault(c),
            _ => border_fault(c),
        };
        if fault != 0 {
            return (fault, rows, 0);
        }
        if due > 0 {
            areas.push(c[1]);
            due -= 1;
            if due == 0 && areas.iter().any(|a| *a != areas[0]) {
                return (25, group, 0);
            }
        } else if *byte == 0x45 {
            (due, group) = (c[1], rows);
            areas.clear();
        }
        rows += 1;
        at += size;
    }
}

// Numbers that look random and are the same in every run.
struct Dice(u64);

impl Dice {
    fn below(&mut self, n: u64) -> u64 {
        self.0 ^= self.0 << 13;
        self.0 ^= self.0 >> 7;
        self.0 ^= self.0 << 17;
        self.0 % n
    }

    fn rarely(&mut self) -> bool {
        self.below(60) == 0
    }

    fn quantity(&mut self) -> u32 {
        match self.below(6) {
            0 => 0,
            1 => MOST,
            2 => MOST + u32::from(self.rarely()),
            _ => self.below(MOST as u64) as u32,
        }
    }

    fn price(&mut self) -> i32 {
        let over = i32::from(self.rarely());
        match self.below(4) {
            0 => CAP as i32 + over,
            1 => -(CAP as i32) - over,
            _ => self.below(2 * CAP as u64) as i32 - CAP as i32,
        }
    }

    fn area(&mut self) -> u8 {
        if self.rarely() { 32 } else { self.below(32) as u8 }
    }
}

fn bid(d: &mut Dice, text: &mut Vec<u8>, area: u8) {
    text.extend([0x42, area, if d.rarely() { 2 } else { d.below(2) as u8 }]);
    for _ in 0..4 {
        let high = d.quantity();
        let low = if d.rarely() { high + 1 } else { d.below(high as u64 + 1) as u32 };
        let price = if high == 0 && !d.rarely() { 0 } else { d.price() };
        text.extend(low.to_be_bytes());
        text.extend(high.to_be_bytes());
        text.extend(price.to_be_bytes());
    }
}

fn row(d: &mut Dice, text: &mut Vec<u8>) {
    match d.below(4) {
        0 => {
            let area = d.area();
            bid(d, text, area);
        }
        1 => {
            let members = if d.rarely() { d.below(12) as u8 } else { 2 + d.below(7) as u8 };
            let area = d.area();
            text.extend([0x45, members]);
            for _ in 0..members {
                let area = if d.rarely() { d.area() } else { area };
                bid(d, text, area);
            }
        }
        2 => {
            let elastic = if d.rarely() { 2 } else { d.below(2) as u8 };
            text.extend([0x4E, d.area(), d.below(2) as u8, elastic]);
            for _ in 0..4 {
                let high = d.quantity();
                let price = if (high == 0 || elastic == 0) && !d.rarely() { 0 } else { d.price() };
                text.extend(high.to_be_bytes());
                text.extend(price.to_be_bytes());
            }
        }
        _ => {
            let from = d.area();
            let to = if d.rarely() { from } else { (from + 1 + d.below(31) as u8) % 32 };
            let step = if d.rarely() { 3 } else { 1 << d.below(3) };
            text.extend([0x4C, from, to, step]);
            for _ in 0..8 {
                text.extend(d.quantity().to_be_bytes());
            }
        }
    }
}

fn book(d: &mut Dice) -> Vec<u8> {
    let mut text = Vec::new();
    for _ in 0..d.below(12) {
        row(d, &mut text);
    }
    text.push(0x53);
    for _ in 0..d.below(3) {
        text.push(d.below(256) as u8);
    }
    text
}

fn damage(d: &mut Dice, text: &mut Vec<u8>, how: u64) {
    let at = d.below(text.len() as u64) as usize;
    match how {
        1 => text[at] = d.below(256) as u8,
        2 => text.truncate(at),
        3 => text[at] = [0x42, 0x45, 0x4E, 0x4C, 0x53, 0, 31, 32, 255][d.below(9) as usize],
        _ => {}
    }
}

fn full(rows: usize) -> Vec<u8> {
    let mut text = Vec::new();
    for k in 0..rows {
        text.extend([0x42, (k % 32) as u8, (k % 2) as u8]);
        for q in 0..4 {
            text.extend([0u32, 1 + (k * 7 + q) as u32 % MOST, k as u32].map(u32::to_be_bytes).concat());
        }
    }
    text.push(0x53);
    text
}

fn micros(rounds: u32, mut run: impl FnMut() -> u64) -> f64 {
    let start = Instant::now();
    let mut all = 0;
    for _ in 0..rounds {
        all += run();
    }
    assert_eq!(all, 0);
    start.elapsed().as_secs_f64() * 1e6 / rounds as f64
}

fn main() {
    let mut d = Dice(88_172_645_463_325_252);
    let mut seen: BTreeMap<u64, u64> = BTreeMap::new();
    let mut differing = 0;
    let texts = 200_000;
    for k in 0..texts {
        let mut text = book(&mut d);
        damage(&mut d, &mut text, k % 4);
        let expected = judge(&text);
        *seen.entry(expected.0).or_default() += 1;
        if proved::check(&text) != expected {
            differing += 1;
            println!("differ: proved {:?}, judge {:?}", proved::check(&text), expected);
        }
    }
    for rows in [1_023, 1_024, 1_025, 1_100] {
        let text = full(rows);
        *seen.entry(judge(&text).0).or_default() += 1;
        if proved::check(&text) != judge(&text) {
            differing += 1;
        }
    }
    println!("texts compared: {}, differing: {differing}", texts + 4);
    println!("how many passed (0) or had which first fault: {seen:?}");
    for rows in [10, 100, 1_000] {
        let text = full(rows);
        let ours = micros(2_000, || proved::fault(&text));
        let theirs = micros(2_000, || judge(&text).0);
        println!("check of {rows} rows: {ours:.1} us, direct judge {theirs:.1} us, ratio {:.1}", ours / theirs);
    }
    assert_eq!(differing, 0);
}
