//! Times of the proved calls beside the independent implementation's and beside a plain pass over the same memory.

mod calls;
mod limit;
mod sample;
mod stack;

use calls::{Chosen, Flat};
use independent::decision::{decide, CustomerDays, Decision};
use independent::layout::Sundays;
use independent::windows::{curves, highest, kept_quarters, windows, Curves, GridDays};
use independent::QUARTERS;
use sample::{Customer, Grid};
use std::hint::black_box;
use std::time::Instant;

const ROUNDS: usize = 4001;

/// What is wanted: at most so many times the independent implementation's time, by call, in one of the two years.
struct Goals {
    windows: f64,
    decision: f64,
    grid_step: f64,
    customer_step: f64,
}

const USUAL: Goals = Goals { windows: 1.05, decision: 1.0, grid_step: 1.45, customer_step: 1.2 };
const HARD: Goals = Goals { windows: 0.8, ..USUAL };

/// And of the limit pass.
const WINDOWS_TO_LIMIT: f64 = 1.5;
const DECISION_TO_LIMIT: f64 = 2.5;

/// The most stack that the choice of quarters may take, with all that it calls.
const CHOICE_STACK: usize = 2_048;

fn verdict(figure: f64, goal: f64) -> &'static str {
    if figure <= goal {
        "met"
    } else {
        "MISSED"
    }
}

/// Something measured: what is timed, and the times of all rounds in microseconds.
struct Timed<'a> {
    name: &'static str,
    call: Box<dyn FnMut() + 'a>,
    times: Vec<f64>,
}

impl<'a> Timed<'a> {
    fn new<R>(name: &'static str, mut call: impl FnMut() -> R + 'a) -> Timed<'a> {
        let call = Box::new(move || {
            black_box(call());
        });
        Timed { name, call, times: Vec::with_capacity(ROUNDS) }
    }

    fn round(&mut self) {
        let start = Instant::now();
        (self.call)();
        self.times.push(start.elapsed().as_secs_f64() * 1e6);
    }

    fn median(&self) -> f64 {
        let mut sorted = self.times.clone();
        sorted.sort_by(f64::total_cmp);
        sorted[sorted.len() / 2]
    }
}

/// A grid series through the independent implementation, day by day.
#[inline(never)]
fn grid_days(grid: &Grid, sheet: &mut [u8]) -> u64 {
    let (_, mut state) = GridDays::open(grid.year, grid.level);
    for day in Sundays::of_period(grid.year).days(&grid.series) {
        let _ = black_box(&mut state).day(day);
    }
    state.close(sheet).map_or_else(|refusal| refusal.number() as u64, |_| 0)
}

#[inline(never)]
fn customer_days(customer: &Customer) -> Decision {
    let basis = &customer.basis;
    let (_, mut state) = CustomerDays::open(&basis.sheet, basis.option, &basis.holidays, &basis.prices);
    for day in Sundays::of_year(customer.year).days(&customer.series) {
        let _ = black_box(&mut state).day(day);
    }
    state.close()
}

fn rust_decide(customer: &Customer) -> Decision {
    let basis = &customer.basis;
    decide(&basis.sheet, basis.option, &basis.holidays, &basis.prices, &customer.series)
}

/// A decision of the independent implementation as the calls give it: a number, a count and the figures.
fn flat(decision: &Decision) -> Flat {
    let text = independent::files::decision_text(decision);
    let numbers: Vec<u64> = text.split_whitespace().filter_map(|word| word.parse().ok()).collect();
    let mut figures = [0; 7];
    figures[..numbers.len() - 1].copy_from_slice(&numbers[1..]);
    Flat { number: numbers[0], count: numbers.len() as u64 - 1, figures }
}

/// The curves that quarters are chosen from: the grid's, and some whose values are all equal, so that a limit is
/// searched for and a season is cut among equals.
fn choices(grid: &Grid) -> [Curves; 2] {
    [curves(grid.year, &grid.series), [[1_000; QUARTERS]; 4]]
}

/// The independent implementation's choice of a season's quarters.
fn kept(curve: &[u32; QUARTERS], peak: u32) -> [bool; QUARTERS] {
    let quarters = kept_quarters(curve, peak);
    std::array::from_fn(|quarter| quarters.has(quarter))
}

/// Both implementations answer alike, whole and by days, before anything is measured.
fn agree(grid: &Grid, customer: &Customer) {
    let mut sheets = [[0; 56]; 4];
    let [whole, days, rust_whole, rust_days] = &mut sheets;
    let numbers = [
        calls::windows(grid.year, grid.level, &grid.series, whole).number,
        calls::grid_days(grid.year, grid.level, &grid.series, days).number,
        windows(grid.year, grid.level, &grid.series, rust_whole).map_or(99, |_| 0),
        grid_days(grid, rust_days),
    ];
    assert_eq!(numbers, [0; 4], "a grid series was refused");
    assert!(sheets.iter().all(|sheet| *sheet == sheets[0]), "the sheets differ");
    for curves in choices(grid) {
        let peak = highest(&curves);
        let mut chosen = [[false; QUARTERS]; 4];
        calls::chosen(peak, &curves, &mut chosen);
        assert_eq!(chosen, curves.map(|curve| kept(&curve, peak)), "the choices differ");
    }
    let expected = flat(&rust_decide(customer));
    assert_eq!(expected, flat(&customer_days(customer)));
    assert_eq!(expected, calls::decide(&customer.basis, &customer.series));
    assert_eq!(expected, calls::customer_days(&customer.basis, &customer.series));
}

fn measure(grid: &Grid, customer: &Customer, goals: &Goals) {
    let mut sheets = [[0u8; 56]; 4];
    let [whole, days, rust_whole, rust_days] = &mut sheets;
    let mut all = [
        Timed::new("limit pass over the grid series", || limit::pass(black_box(&grid.series))),
        Timed::new("windows", || calls::windows(grid.year, grid.level, black_box(&grid.series), whole)),
        Timed::new("windows, Rust", || windows(grid.year, grid.level, black_box(&grid.series), rust_whole)),
        Timed::new("grid by days", || calls::grid_days(grid.year, grid.level, black_box(&grid.series), days)),
        Timed::new("grid by days, Rust", || grid_days(black_box(grid), rust_days)),
        Timed::new("limit pass over the customer's series", || limit::pass(black_box(&customer.series))),
        Timed::new("decision", || calls::decide(&customer.basis, black_box(&customer.series))),
        Timed::new("decision, Rust", || rust_decide(black_box(customer))),
        Timed::new("customer by days", || calls::customer_days(&customer.basis, black_box(&customer.series))),
        Timed::new("customer by days, Rust", || customer_days(black_box(customer))),
    ];
    for _ in 0..ROUNDS {
        all.iter_mut().for_each(Timed::round);
    }
    let medians: Vec<f64> = all.iter().map(Timed::median).collect();
    for (timed, median) in all.iter().zip(&medians) {
        println!("  {:40} {median:8.2} µs", timed.name);
    }
    let days = |series: &[u32]| (series.len() / QUARTERS) as f64;
    show_ratios("windows", medians[1], (medians[2], goals.windows), (medians[0], WINDOWS_TO_LIMIT));
    show_ratios("decision", medians[6], (medians[7], goals.decision), (medians[5], DECISION_TO_LIMIT));
    show_step("grid", medians[3], (medians[4], goals.grid_step), days(&grid.series));
    show_step("customer", medians[8], (medians[9], goals.customer_step), days(&customer.series));
}

/// A time beside two others, each with the goal for the ratio.
fn show_ratios(name: &str, proved: f64, (rust, to_rust): (f64, f64), (limit, to_limit): (f64, f64)) {
    let ratios = (proved / rust, proved / limit);
    println!(
        "  {name}: {:.2} times Rust (goal {to_rust}: {}), {:.2} times the limit pass (goal {to_limit}: {})",
        ratios.0,
        verdict(ratios.0, to_rust),
        ratios.1,
        verdict(ratios.1, to_limit)
    );
}

fn show_step(name: &str, proved: f64, (rust, goal): (f64, f64), days: f64) {
    let ratio = proved / rust;
    println!(
        "  a day step of the {name}: {:.0} ns, Rust {:.0} ns, ratio {ratio:.2} (goal {goal}: {})",
        1e3 * proved / days,
        1e3 * rust / days,
        verdict(ratio, goal)
    );
}

/// The deepest stack of each call, beside what it may take at the most.
fn show_stack(grid: &Grid, customer: &Customer) {
    let mut sheet = [0u8; 56];
    let mut chosen: Chosen = [[false; QUARTERS]; 4];
    let choice = choices(grid).map(|curves| stack::deepest(|| calls::chosen(highest(&curves), &curves, &mut chosen)));
    let show = |name: &str, bytes: usize, most: usize| println!("  {name:16} {bytes:6} (at most {most}: {})", verdict(bytes as f64, most as f64));
    println!("deepest stack, bytes");
    show("choice alone", choice[0].max(choice[1]), CHOICE_STACK);
    show("windows", stack::deepest(|| calls::windows(grid.year, grid.level, &grid.series, &mut sheet)), 3_152);
    show("grid by days", stack::deepest(|| calls::grid_days(grid.year, grid.level, &grid.series, &mut sheet)), 5_872);
    show("decision", stack::deepest(|| calls::decide(&customer.basis, &customer.series)), 3_292);
    show("customer by days", stack::deepest(|| calls::customer_days(&customer.basis, &customer.series)), 5_480);
}

fn main() {
    for (name, grid, customer, goals) in [
        ("a usual year: some quarters above the line, windows in winter and autumn", sample::usual_grid(), sample::usual_customer(), USUAL),
        ("a hard year: every season cut to forty, forty windows in every season", sample::hard_grid(), sample::hard_customer(), HARD),
    ] {
        agree(&grid, &customer);
        println!("{name}; medians of {ROUNDS}");
        measure(&grid, &customer, &goals);
        show_stack(&grid, &customer);
    }
}
