//! Times a call over a capture on standard input, by processor time: `calls NAME SECONDS < CAPTURE`, as calls.c does.

use std::io::Read;

extern "C" {
    /// The process's processor time, in microseconds.
    fn clock() -> std::ffi::c_long;
}

fn read_clock() -> f64 {
    // Safety: it has no parameters.
    unsafe { clock() as f64 / 1e6 }
}

fn measure<T>(seconds: f64, call: impl Fn() -> T) {
    let (mut count, mut took) = (1, 0.0);
    while took < seconds {
        count *= 2;
        let begin = read_clock();
        for _ in 0..count {
            std::hint::black_box(call());
        }
        took = read_clock() - begin;
    }
    println!("{:.1}", took / count as f64 * 1e9);
}

fn main() {
    let arguments: Vec<String> = std::env::args().collect();
    let seconds = arguments[2].parse().expect("seconds");
    let mut capture = Vec::new();
    std::io::stdin().read_to_end(&mut capture).expect("a capture");
    match arguments[1].as_str() {
        "check" => measure(seconds, || linkcap::check(&capture).expect("legal")),
        "normalize" => measure(seconds, || linkcap::normalize(&capture).expect("legal")),
        "same" => measure(seconds, || linkcap::same(&capture, &capture).expect("legal")),
        "lines" => measure(seconds, || linkcap::lines(&capture).expect("legal")),
        name => panic!("no call {name}"),
    }
}
