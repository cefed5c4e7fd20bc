//! The proved calls as Rust sees them (crates/bench_grid and bench_customer). A slice is a pointer and then a length.
//! The answer is written where the first argument points: so C on x86-64 hands back a struct of this size, and the
//! module says it in so many words, for any processor. The choice of quarters has no answer beside what it writes.

use std::mem::MaybeUninit;

use independent::decision::Prices;
use independent::windows::Curves;
use independent::QUARTERS;

/// The chosen quarters of the four seasons.
pub type Chosen = [[bool; QUARTERS]; 4];

/// An answer's number, how many figures it has, and the figures.
#[repr(C)]
#[derive(Clone, Copy, Debug, PartialEq, Eq)]
pub struct Flat {
    pub number: u64,
    pub count: u64,
    pub figures: [u64; 7],
}

type GridCall = unsafe extern "C" fn(*mut Flat, u16, u8, *const u32, usize, *mut u8, usize) -> *mut Flat;
type CustomerCall = unsafe extern "C" fn(*mut Flat, *const u8, usize, *const u16, usize, u32, u32, u32, u32, bool, *const u32, usize) -> *mut Flat;

unsafe extern "C" {
    fn bench_chosen(peak: u32, curves: *const Curves, out: *mut Chosen);
    fn bench_windows(answer: *mut Flat, year: u16, level: u8, series: *const u32, length: usize, out: *mut u8, room: usize) -> *mut Flat;
    fn bench_grid_days(answer: *mut Flat, year: u16, level: u8, series: *const u32, length: usize, out: *mut u8, room: usize) -> *mut Flat;
    fn bench_decide(
        answer: *mut Flat,
        sheet: *const u8,
        sheet_length: usize,
        holidays: *const u16,
        holiday_count: usize,
        low_capacity: u32,
        low_energy: u32,
        high_capacity: u32,
        high_energy: u32,
        option: bool,
        series: *const u32,
        length: usize,
    ) -> *mut Flat;
    fn bench_customer_days(
        answer: *mut Flat,
        sheet: *const u8,
        sheet_length: usize,
        holidays: *const u16,
        holiday_count: usize,
        low_capacity: u32,
        low_energy: u32,
        high_capacity: u32,
        high_energy: u32,
        option: bool,
        series: *const u32,
        length: usize,
    ) -> *mut Flat;
}

/// A customer's year without its readings.
pub struct Basis {
    pub sheet: [u8; 56],
    pub holidays: Vec<u16>,
    pub prices: Prices,
    pub option: bool,
}

fn grid_call(call: GridCall, year: u16, level: u8, series: &[u32], out: &mut [u8]) -> Flat {
    let mut answer = MaybeUninit::uninit();
    // SAFETY: the pointers and lengths are those of slices that live through the call, which writes the whole answer
    unsafe {
        call(answer.as_mut_ptr(), year, level, series.as_ptr(), series.len(), out.as_mut_ptr(), out.len());
        answer.assume_init()
    }
}

fn customer_call(call: CustomerCall, basis: &Basis, series: &[u32]) -> Flat {
    let Basis { sheet, holidays, prices: Prices { low, high }, option } = basis;
    let mut answer = MaybeUninit::uninit();
    // SAFETY: as above
    unsafe {
        call(
            answer.as_mut_ptr(),
            sheet.as_ptr(),
            sheet.len(),
            holidays.as_ptr(),
            holidays.len(),
            low.capacity,
            low.energy,
            high.capacity,
            high.energy,
            *option,
            series.as_ptr(),
            series.len(),
        );
        answer.assume_init()
    }
}

pub fn chosen(peak: u32, curves: &Curves, out: &mut Chosen) {
    // SAFETY: both live through the call, which reads the one and writes the other
    unsafe { bench_chosen(peak, curves, out) }
}

pub fn windows(year: u16, level: u8, series: &[u32], out: &mut [u8]) -> Flat {
    grid_call(bench_windows, year, level, series, out)
}

pub fn grid_days(year: u16, level: u8, series: &[u32], out: &mut [u8]) -> Flat {
    grid_call(bench_grid_days, year, level, series, out)
}

pub fn decide(basis: &Basis, series: &[u32]) -> Flat {
    customer_call(bench_decide, basis, series)
}

pub fn customer_days(basis: &Basis, series: &[u32]) -> Flat {
    customer_call(bench_customer_days, basis, series)
}
