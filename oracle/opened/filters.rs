// Added to filters/mod.rs, in the same module.

use crate::fields::{Fields, State};
use crate::refusals;

fields!([T: Float + Fields] Lowpass<T> { tau dt y alpha0 alpha1 });
fields!([] NthOrderLowpass<f32, 2> { filters });
fields!([] Highpass<f32> { tau dt y x_prev alpha });
fields!([] Complementary<f32> { lp_filter hp_filter });
fields!([] IntegratingHighpass<f32> { tau dt alpha y_prev });
fields!([] IntegratingComplementary<f32> { tau dt alpha y_prev });
fields!([] SlewRate<f32> { rate_limit signal dt });
fields!([] Linear<f32> { factor offset });
fields!([T: Float + Fields] BiquadParams<T> { a b });
fields!([T: Float + Fields] BiquadFilter<T> { params x y });
fields!([T: Float + Fields] NotchFilter<T> { fc fb dt biquad });

impl State for Lowpass<f32> {}
impl State for NthOrderLowpass<f32, 2> {}
impl State for Complementary<f32> {}
impl State for IntegratingHighpass<f32> {}
impl State for IntegratingComplementary<f32> {}

impl State for SlewRate<f32> {
    fn refusal(&self) -> u32 {
        refusals::slew_limit(self.rate_limit)
    }
}

/// The private high pass, for use outside of its module.
pub struct OpenHighpass(Highpass<f32>);

impl OpenHighpass {
    pub fn new(tau: f32, dt: f32) -> Self {
        OpenHighpass(Highpass::new(tau, dt))
    }
    pub fn set_dt(&mut self, dt: f32) {
        self.0.set_dt(dt);
    }
    pub fn set_tau(&mut self, tau: f32) {
        self.0.set_tau(tau);
    }
    pub fn update(&mut self, x: f32) -> f32 {
        self.0.update(x)
    }
}

impl Fields for OpenHighpass {
    fn read(words: &mut dyn Iterator<Item = u32>) -> Self {
        OpenHighpass(Fields::read(words))
    }
    fn write(&self, to: &mut dyn FnMut(u32)) {
        self.0.write(to);
    }
}

impl State for OpenHighpass {}

/// A `MovingAverage` whose length is a number beside the slots. Those above the length are not the Rust's.
pub struct Window {
    length: u32,
    head: u32,
    slots: [f32; 16],
}

fields!([] Window { length head slots });

impl State for Window {
    fn refusal(&self) -> u32 {
        refusals::window(self.length, self.head)
    }
}

/// A function for each length from 1 to 16; the one for a length is found at that place less one.
macro_rules! by_length {
    ($function:ident) => {
        [
            $function::<1>,
            $function::<2>,
            $function::<3>,
            $function::<4>,
            $function::<5>,
            $function::<6>,
            $function::<7>,
            $function::<8>,
            $function::<9>,
            $function::<10>,
            $function::<11>,
            $function::<12>,
            $function::<13>,
            $function::<14>,
            $function::<15>,
            $function::<16>,
        ]
    };
}

impl Window {
    /// The length of these three has been judged: 1 to 16.
    pub fn new(length: u32) -> Self {
        fn new<const N: usize>() -> Window {
            Window::of(MovingAverage::<f32, N>::new(), [0.0; 16])
        }
        by_length!(new)[length as usize - 1]()
    }

    pub fn new_with_value(length: u32, value: f32) -> Self {
        fn new_with_value<const N: usize>(value: f32) -> Window {
            Window::of(MovingAverage::<f32, N>::new_with_value(value), [0.0; 16])
        }
        by_length!(new_with_value)[length as usize - 1](value)
    }

    pub fn update(&mut self, value: f32) -> f32 {
        fn update<const N: usize>(window: &mut Window, value: f32) -> f32 {
            let mut average = MovingAverage::<f32, N>::new();
            average.array.copy_from_slice(&window.slots[..N]);
            average.head = window.head as usize;
            let y = average.update(value);
            *window = Window::of(average, window.slots);
            y
        }
        by_length!(update)[self.length as usize - 1](self, value)
    }

    /// The Rust's slots, and after them those of `slots`.
    fn of<const N: usize>(average: MovingAverage<f32, N>, mut slots: [f32; 16]) -> Self {
        slots[..N].copy_from_slice(&average.array);
        Window { length: N as u32, head: average.head as u32, slots }
    }
}

/// A notch and the t that stands for its tangent.
pub struct Notch {
    pub filter: NotchFilter<f32>,
    pub t: f32,
}

/// The t comes after the sampling time, among the Rust's own fields.
impl Fields for Notch {
    fn read(words: &mut dyn Iterator<Item = u32>) -> Self {
        let [fc, fb, dt, t] = Fields::read(words);
        Notch { filter: NotchFilter { fc, fb, dt, biquad: Fields::read(words) }, t }
    }
    fn write(&self, to: &mut dyn FnMut(u32)) {
        let NotchFilter { fc, fb, dt, biquad } = self.filter;
        [fc, fb, dt, self.t].write(to);
        biquad.write(to);
    }
}

/// The form of these fields in the protocol.
#[macro_export]
macro_rules! notch_form {
    () => {
        "ffffffffffffffff"
    };
}

impl State for Notch {}
impl State for [Notch; 3] {}

/// The three numbers of the default; its kind is Actual.
pub fn default_expo_rates() -> [f32; 3] {
    let ExpoRates { rates_type: RatesType::Actual, expo, max_rates, center_sens } = ExpoRates::default() else {
        panic!("the kind of the default is Actual");
    };
    [expo, max_rates, center_sens]
}
