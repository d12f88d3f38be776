//! Of the lines that `compare` sends with the same options: how many constructors and setters leave a filter whose tau + dt is
//! zero, where a low pass has a rule of its own (request W4). tau and dt are those that the Rust's state shows after the call.
//! Refused calls are not counted.

use driver::generator::Generator;
use driver::options::{Options, COMPARED_LINES};
use driver::protocol::{word, Driver};

/// Filters of a type that get their tau and dt from the same calls.
struct Watched {
    name: &'static str,
    calls: &'static [&'static str],
    /// What they are, where the type has others too.
    which: &'static str,
    /// In the words that `show` answers, the place of each one's tau; dt comes after it.
    taus: &'static [usize],
    /// The place of the switch without which there is no filter.
    switch: Option<usize>,
}

impl Watched {
    const fn new(name: &'static str, calls: &'static [&'static str], taus: &'static [usize]) -> Self {
        Watched { name, calls, which: "", taus, switch: None }
    }
}

const WATCHED: [Watched; 11] = [
    Watched::new("lowpass", &["new", "set_dt", "set_tau"], &[0]),
    Watched::new("lowpass2", &["new", "set_dt", "configure"], &[0, 5]),
    Watched::new("complementary", &["new", "set_dt", "set_tau"], &[0]),
    Watched { switch: Some(16), ..Watched::new("pid", &["with_config", "set_lp_filter"], &[17]) },
    Watched::new("rate_pid", &["new", "set_ts"], &[17, 22]),
    Watched { which: "damping", ..Watched::new("rate_pid", &["new"], &[12]) },
    Watched::new("bank", &["open", "set_ts"], &[18, 23]),
    Watched { which: "damping", ..Watched::new("bank", &["open"], &[13]) },
    // These keep their formula.
    Watched::new("highpass", &["new", "set_dt", "set_tau"], &[0]),
    Watched::new("integrating_highpass", &["new"], &[0]),
    Watched::new("integrating_complementary", &["new"], &[0]),
];

/// What is counted for one call and its filters.
struct Count {
    watched: &'static Watched,
    call: String,
    lines: u64,
    zero_sums: u64,
    both_zero: u64,
}

impl Count {
    fn add(&mut self, shown: &[u32]) {
        if self.watched.switch.is_some_and(|place| shown[place] == 0) {
            return;
        }
        let times = self.watched.taus.iter().map(|&place| [shown[place], shown[place + 1]].map(f32::from_bits));
        let of_zero: Vec<[f32; 2]> = times.filter(|[tau, dt]| tau + dt == 0.0).collect();
        self.lines += 1;
        self.zero_sums += !of_zero.is_empty() as u64;
        self.both_zero += of_zero.iter().any(|[tau, _]| *tau == 0.0) as u64;
    }
}

fn main() {
    let options = Options::read(COMPARED_LINES);
    let mut generator = Generator::new(options.seed, &options.parts);
    let mut driver = Driver::new();
    let mut counts: Vec<Count> = WATCHED.iter().flat_map(counts_of).collect();
    for _ in 0..options.lines {
        let mut answer = Vec::new();
        let Some(call) = driver.answer(generator.next_line(), &mut answer) else { continue };
        let call = driver.names()[call];
        if answer[0] != b'0' || !counts.iter().any(|count| count.call == call) {
            continue;
        }
        let shown = shown(&mut driver, call);
        counts.iter_mut().filter(|count| count.call == call).for_each(|count| count.add(&shown));
    }
    println!("seed {}, {} lines", options.seed, options.lines);
    println!("{:32} {:>12} {:>12} {:>12} {:>8}", "call", "lines", "sum zero", "both zero", "share");
    for Count { watched, call, lines, zero_sums, both_zero } in counts.iter().filter(|count| count.lines > 0) {
        let what = format!("{call} {}", watched.which);
        let share = *zero_sums as f64 / *lines as f64 * 100.0;
        println!("{what:32} {lines:>12} {zero_sums:>12} {both_zero:>12} {share:>6.1} %");
    }
}

fn counts_of(watched: &'static Watched) -> impl Iterator<Item = Count> {
    let name = |call| format!("{}.{call}", watched.name);
    watched.calls.iter().map(move |call| Count { watched, call: name(call), lines: 0, zero_sums: 0, both_zero: 0 })
}

/// The state that the last line, which was this call, was on.
fn shown(driver: &mut Driver, call: &str) -> Vec<u32> {
    let name = call.split('.').next().unwrap_or(call);
    let mut line = format!("{name}.show").into_bytes();
    if name == "bank" {
        word(driver.operands()[0], &mut line);
    }
    let mut answer = Vec::new();
    driver.answer(&line, &mut answer);
    let words = String::from_utf8(answer).expect("answers are plain text");
    words.split(' ').skip(1).map(|word| u32::from_str_radix(word, 16).expect("a word is eight digits")).collect()
}
