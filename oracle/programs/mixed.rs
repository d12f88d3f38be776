//! Rows of mixed banks: lanes with a slew limiter, lanes without one, and closed lanes side by side, by the project's rows and by the Rust's
//! controllers, one row after the other. Random settings and cells, NaN and infinities among them, and odd pieces of rows. All NaNs count as one.

use holsatus::filters::rate_pid::RatePid;
use std::process::exit;

extern "C" {
    fn plumradek_mixed(s: *const f32, ns: usize, cells: *const f32, n: usize, out: *mut f32, no: usize) -> usize;
}

const LANES: usize = 8;
const ROOM: usize = 512;

struct Random(u64);

impl Random {
    fn next(&mut self) -> u64 {
        self.0 = self.0.wrapping_mul(6364136223846793005).wrapping_add(1442695040888963407);
        (self.0 >> 33) ^ (self.0 >> 11)
    }

    fn below(&mut self, n: u64) -> u64 {
        self.next() % n
    }

    /// Mostly a number of everyday size; now and then any bits at all.
    fn number(&mut self) -> f32 {
        match self.below(40) {
            0 => f32::from_bits(self.next() as u32),
            1 => f32::NAN,
            2 => f32::INFINITY,
            3 => -0.0,
            _ => (self.below(4_000_001) as f32 / 1_000_000.0 - 2.0) * [1.0, 0.3, 10.0][self.below(3) as usize],
        }
    }
}

fn word(x: f32) -> u32 {
    if x.is_nan() { 0x7fc0_0000 } else { x.to_bits() }
}

/// Six settings a lane. No limiter is NaN, and a limit below zero is refused: its lane stays closed.
fn settings(random: &mut Random, closed: bool) -> Vec<f32> {
    (0..LANES)
        .flat_map(|_| {
            let limit = match random.below(if closed { 8 } else { 7 }) {
                0..=3 => f32::NAN,
                4..=6 => random.number().abs(),
                _ => -1.0,
            };
            let mut own: Vec<f32> = (0..5).map(|_| random.number()).collect();
            own.push(limit);
            own
        })
        .collect()
}

fn main() {
    let runs: u64 = std::env::args().nth(1).map_or(100_000, |n| n.parse().expect("how many runs"));
    let mut random = Random(1);
    let (mut numbers, mut refused, mut differ) = (0u64, 0u64, 0u64);
    for run in 0..runs {
        let closed = run % 4 == 0;
        let s = settings(&mut random, closed);
        let all = random.below(ROOM as u64 + 1) as usize;
        let spare = random.below(3) as usize;
        let cells: Vec<f32> = (0..all * 3 + spare).map(|_| random.number()).collect();
        let mut ours = vec![42.0f32; ROOM - random.below(64) as usize];
        let mut theirs = ours.clone();

        let first_closed = (0..LANES).find(|i| s[i * 6 + 5] < 0.0);
        let mut pids: Vec<RatePid> = s
            .chunks_exact(6)
            .map(|o| {
                let pid = RatePid::new(o[0], o[1], o[2], o[3], o[4]);
                if o[5] >= 0.0 { pid.slew(o[5]) } else { pid }
            })
            .collect();
        let whole = all.min(theirs.len());
        let made = first_closed.map_or(whole, |lane| whole.min(lane));
        for i in 0..made {
            theirs[i] = pids[i % LANES].update(cells[i * 3], cells[i * 3 + 1], cells[i * 3 + 2]);
        }
        // Sound because both sides hold to the lengths.
        let told = unsafe { plumradek_mixed(s.as_ptr(), s.len(), cells.as_ptr(), cells.len(), ours.as_mut_ptr(), ours.len()) };
        numbers += made as u64;
        refused += u64::from(made < whole);
        if told != made || ours.iter().map(|x| word(*x)).ne(theirs.iter().map(|x| word(*x))) {
            differ += 1;
        }
    }
    println!("mixed banks: {runs} runs, {refused} of them up to a closed lane, {numbers} numbers: {differ} runs differ");
    exit(i32::from(differ > 0));
}
