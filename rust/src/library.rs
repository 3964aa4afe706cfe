//! The proved library, by include/dispatch_bench.h. The only module with calls into another language.
//!
//! What each call rests on: a slice's address is never null, and it may be read, or written where it is `&mut`, for its whole length while the call
//! lasts; two `&mut` never overlap, nor does one overlap a `&`. The library keeps no address and no state between calls, and returns from every
//! input. A `Decision` is laid out as a `u32` with 0 for `None`, and a `Sweep` as a `u8`, so whatever number is written there is a value of them.

use std::num::NonZeroU32;

use crate::record::{Car, Edition, Phase, Policy, Record, Strategy, Waiting};
use crate::{Decision, Run, Sent, StoreEntry, Sweep, SweepDirection, SweepMode};

unsafe extern "C" {
    fn dispatch_bench_version() -> u32;
    fn dispatch_bench_read(sheet: *const u8, length: usize, offset: *mut u64) -> u32;
    fn dispatch_bench_choose(
        cars: usize,
        columns: usize,
        cells: *const u64,
        cell_count: usize,
        chosen: *mut u32,
        places: usize,
        total: *mut u64,
    ) -> u32;
    fn dispatch_bench_choose_plain(
        cars: usize,
        columns: usize,
        cells: *const u64,
        cell_count: usize,
        chosen: *mut u32,
        places: usize,
        total: *mut u64,
    ) -> u32;
    fn dispatch_bench_pass(
        sheet: *const u8,
        length: usize,
        decisions: *mut Decision,
        decision_count: usize,
        matrix: *mut u64,
        cell_count: usize,
        sweeps: *mut Sweep,
        sweep_count: usize,
        cars: *mut u64,
        stops: *mut u64,
        total: *mut u64,
        ranked: *mut u64,
        held: *mut u64,
        offset: *mut u64,
    ) -> u32;
    fn dispatch_bench_pending(
        sheet: *const u8,
        length: usize,
        stops: *mut u32,
        places: usize,
        count: *mut u64,
        offset: *mut u64,
    ) -> u32;
    fn dispatch_bench_why(
        sheet: *const u8,
        length: usize,
        car: u32,
        stop: u32,
        terms: *mut f64,
        places: usize,
        reason: *mut u32,
        offset: *mut u64,
    ) -> u32;
    fn dispatch_bench_weights(
        store: *const u8,
        length: usize,
        day: u32,
        weights: *mut f64,
        places: usize,
        offset: *mut u64,
    ) -> u32;
    fn dispatch_bench_grade(
        sheet: *const u8,
        length: usize,
        columns: *const u32,
        column_count: usize,
        car_prices: *const i64,
        car_price_count: usize,
        column_prices: *const i64,
        column_price_count: usize,
        matrix: *mut u64,
        cell_count: usize,
        least: *mut u32,
        offset: *mut u64,
    ) -> u32;
    fn dispatch_bench_travel_time(
        distance: f64,
        speed: f64,
        top: f64,
        acceleration: f64,
        deceleration: f64,
        time: *mut f64,
    ) -> u32;
    fn dispatch_bench_start(
        sheet: *mut u8,
        length: usize,
        state: *mut u32,
        state_count: usize,
        edition: u32,
    ) -> u32;
    fn dispatch_bench_put_policy(
        sheet: *mut u8,
        length: usize,
        state: *mut u32,
        state_count: usize,
        strategy: u32,
        limit: u16,
        rate: f64,
        traffic: u32,
        w0: f64,
        w1: f64,
        w2: f64,
        w3: f64,
        w4: f64,
        w5: f64,
    ) -> u32;
    fn dispatch_bench_put_stop(
        sheet: *mut u8,
        length: usize,
        state: *mut u32,
        state_count: usize,
        id: u32,
        position: f64,
        across: f64,
    ) -> u32;
    fn dispatch_bench_put_line(
        sheet: *mut u8,
        length: usize,
        state: *mut u32,
        state_count: usize,
        id: u32,
        serves: u64,
    ) -> u32;
    fn dispatch_bench_put_car(
        sheet: *mut u8,
        length: usize,
        state: *mut u32,
        state_count: usize,
        id: u32,
        line: u32,
        phase: u32,
        stop: u32,
        target: u32,
        listed: u32,
        up: u32,
        down: u32,
        sweep: u32,
        mode: u32,
        position: f64,
        across: f64,
        speed: f64,
        capacity: f64,
        load: f64,
        has_bypass_up: u32,
        bypass_up: f64,
        has_bypass_down: u32,
        bypass_down: f64,
        transition: u32,
        dwell: u32,
        restricted: u64,
        calls: u64,
    ) -> u32;
    fn dispatch_bench_put_aboard(
        sheet: *mut u8,
        length: usize,
        state: *mut u32,
        state_count: usize,
        car: u32,
        destination: u32,
    ) -> u32;
    fn dispatch_bench_put_waiting(
        sheet: *mut u8,
        length: usize,
        state: *mut u32,
        state_count: usize,
        stop: u32,
        line: u32,
        destination: u32,
        weight: f64,
        wait: u64,
    ) -> u32;
    fn dispatch_bench_put_demand(
        sheet: *mut u8,
        length: usize,
        state: *mut u32,
        state_count: usize,
        stop: u32,
        riding: u16,
        call: u32,
    ) -> u32;
    fn dispatch_bench_put_closed(
        sheet: *mut u8,
        length: usize,
        state: *mut u32,
        state_count: usize,
        stop: u32,
    ) -> u32;
    fn dispatch_bench_finish(
        sheet: *mut u8,
        length: usize,
        state: *const u32,
        state_count: usize,
        bytes: *mut u64,
    ) -> u32;
    fn dispatch_bench_put_weight(
        store: *mut u8,
        length: usize,
        count: *mut u16,
        setting: u8,
        start: u32,
        issue: u16,
        weight: f64,
    ) -> u32;
    fn dispatch_bench_put_field(
        sheet: *mut u8,
        length: usize,
        at: u32,
        width: u32,
        value: u64,
    ) -> u32;
}

/// The numbers that a pass answers, beside what it leaves in the buffers.
#[derive(Default)]
pub struct Numbers {
    pub cars: u64,
    pub stops: u64,
    pub total: u64,
    pub ranked: u64,
    pub held: u64,
    pub offset: u64,
}

/// The number of the library's interface.
pub fn version() -> u32 {
    // SAFETY: nothing is lent.
    unsafe { dispatch_bench_version() }
}

/// 0 for an accepted sheet, or the refusal's number; then its offset.
pub fn read(sheet: &[u8]) -> (u32, u64) {
    let mut offset = 0;
    // SAFETY: the sheet is lent as its address and its length, the offset is a local; see above.
    let number = unsafe { dispatch_bench_read(sheet.as_ptr(), sheet.len(), &mut offset) };
    (number, offset)
}

/// Whether there is a choice: then its columns stand first in `chosen`, and `total` is its total.
pub fn choose(
    cars: usize,
    columns: usize,
    cells: &[u64],
    chosen: &mut [u32],
    total: &mut u64,
) -> bool {
    // SAFETY: both slices are lent as their addresses and lengths, and the total as the address of one `u64`; see above.
    let answer = unsafe {
        dispatch_bench_choose(
            cars,
            columns,
            cells.as_ptr(),
            cells.len(),
            chosen.as_mut_ptr(),
            chosen.len(),
            total,
        )
    };
    answer == 1
}

/// 0 where the columns of a small matrix's choice stand first in `chosen` and `total` is their total, or the refusal's number.
pub fn choose_plain(
    cars: usize,
    columns: usize,
    cells: &[u64],
    chosen: &mut [u32],
    total: &mut u64,
) -> u32 {
    // SAFETY: both slices are lent as their addresses and lengths, and the total as the address of one `u64`; see above.
    unsafe {
        dispatch_bench_choose_plain(
            cars,
            columns,
            cells.as_ptr(),
            cells.len(),
            chosen.as_mut_ptr(),
            chosen.len(),
            total,
        )
    }
}

/// 0 for a pass, or the refusal's number.
pub fn pass(
    sheet: &[u8],
    decisions: &mut [Decision],
    matrix: &mut [u64],
    sweeps: &mut [Sweep],
    numbers: &mut Numbers,
) -> u32 {
    // SAFETY: the four slices are lent as their addresses and lengths, and the six numbers are fields of their own; see above.
    unsafe {
        dispatch_bench_pass(
            sheet.as_ptr(),
            sheet.len(),
            decisions.as_mut_ptr(),
            decisions.len(),
            matrix.as_mut_ptr(),
            matrix.len(),
            sweeps.as_mut_ptr(),
            sweeps.len(),
            &mut numbers.cars,
            &mut numbers.stops,
            &mut numbers.total,
            &mut numbers.ranked,
            &mut numbers.held,
            &mut numbers.offset,
        )
    }
}

/// 0 where the pending stops stand first in `stops`, `count` of them, or the refusal's number.
pub fn pending(sheet: &[u8], stops: &mut [u32], count: &mut u64, offset: &mut u64) -> u32 {
    // SAFETY: both slices are lent as their addresses and lengths, and each number as the address of one `u64`; see above.
    unsafe {
        dispatch_bench_pending(
            sheet.as_ptr(),
            sheet.len(),
            stops.as_mut_ptr(),
            stops.len(),
            count,
            offset,
        )
    }
}

/// 0 where `reason` is why a pair has no rank, or 0 with its terms first in `terms`; or the refusal's number.
pub fn why(
    sheet: &[u8],
    (car, stop): (u32, u32),
    terms: &mut [f64],
    reason: &mut u32,
    offset: &mut u64,
) -> u32 {
    // SAFETY: both slices are lent as their addresses and lengths, and each number as the address of one; see above.
    unsafe {
        dispatch_bench_why(
            sheet.as_ptr(),
            sheet.len(),
            car,
            stop,
            terms.as_mut_ptr(),
            terms.len(),
            reason,
            offset,
        )
    }
}

/// 0 where the six weights of a store for a day stand first in `weights`, or the refusal's number.
pub fn weights(store: &[u8], day: u32, weights: &mut [f64], offset: &mut u64) -> u32 {
    // SAFETY: both slices are lent as their addresses and lengths, and the offset as the address of one `u64`; see above.
    unsafe {
        dispatch_bench_weights(
            store.as_ptr(),
            store.len(),
            day,
            weights.as_mut_ptr(),
            weights.len(),
            offset,
        )
    }
}

/// 0 where the matrix is filled and `least` is 1 for a choice that the prices show to be least and 0 for any other, or the refusal's number.
pub fn grade(
    sheet: &[u8],
    sent: &Sent,
    matrix: &mut [u64],
    least: &mut u32,
    offset: &mut u64,
) -> u32 {
    // SAFETY: the five slices are lent as their addresses and lengths, and each number as the address of one; see above.
    unsafe {
        dispatch_bench_grade(
            sheet.as_ptr(),
            sheet.len(),
            sent.columns.as_ptr(),
            sent.columns.len(),
            sent.car_prices.as_ptr(),
            sent.car_prices.len(),
            sent.column_prices.as_ptr(),
            sent.column_prices.len(),
            matrix.as_mut_ptr(),
            matrix.len(),
            least,
            offset,
        )
    }
}

/// 0 where `time` is the seconds of a run, or the refusal's number.
pub fn travel_time(run: &Run, time: &mut f64) -> u32 {
    // SAFETY: the time is lent as the address of one `f64`; see above.
    unsafe {
        dispatch_bench_travel_time(
            run.distance,
            run.speed,
            run.top_speed,
            run.acceleration,
            run.deceleration,
            time,
        )
    }
}

/// 0 where the head of a sheet is written and the state is that of no record, or 2.
pub fn start(sheet: &mut [u8], state: &mut [u32], edition: Edition) -> u32 {
    let edition = match edition {
        Edition::First => 1,
        Edition::Second => 2,
    };
    // SAFETY: the sheet and the state are lent as their addresses and lengths; see above.
    unsafe {
        dispatch_bench_start(
            sheet.as_mut_ptr(),
            sheet.len(),
            state.as_mut_ptr(),
            state.len(),
            edition,
        )
    }
}

/// 0 where the record is written behind those that the state counts, and counted there, or 2, 6 or 7.
pub fn put(sheet: &mut [u8], state: &mut [u32], record: &Record) -> u32 {
    match record {
        Record::Policy(policy) => put_policy(sheet, state, policy),
        Record::Stop(stop) => put_stop(sheet, state, stop.id, stop.position, stop.across),
        Record::Line(line) => put_line(sheet, state, line.id, line.serves),
        Record::Car(car) => put_car(sheet, state, car),
        Record::Aboard(rider) => put_aboard(sheet, state, rider.car, rider.destination),
        Record::Waiting(rider) => put_waiting(sheet, state, rider),
        Record::Demand(demand) => put_demand(
            sheet,
            state,
            demand.stop,
            demand.riding_count,
            demand.riderless_call,
        ),
        Record::Closed(closed) => put_closed(sheet, state, closed.stop),
    }
}

/// An optional id, 0 where there is none.
fn id(id: Option<NonZeroU32>) -> u32 {
    id.map_or(0, NonZeroU32::get)
}

/// The code of a strategy, and the six weights by slot.
fn weights_of(strategy: &Strategy) -> (u32, [f64; 6]) {
    match strategy {
        Strategy::Etd(w) => (0, [w.wait, w.delay, w.door, w.wait_squared, w.age, 0.0]),
        Strategy::Rsr(w) => (
            1,
            [
                w.eta,
                w.wrong_direction,
                w.coincident_call,
                w.load,
                w.age,
                w.peak_multiplier,
            ],
        ),
        Strategy::Scan => (2, [0.0; 6]),
    }
}

/// The code of a phase, and the stop of a moving or repositioning car.
fn phase_of(phase: Phase) -> (u32, u32) {
    match phase {
        Phase::Idle => (0, 0),
        Phase::Moving(stop) => (1, stop),
        Phase::Repositioning(stop) => (2, stop),
        Phase::DoorOpening => (3, 0),
        Phase::Loading => (4, 0),
        Phase::DoorClosing => (5, 0),
        Phase::Stopped => (6, 0),
    }
}

/// A policy.
fn put_policy(sheet: &mut [u8], state: &mut [u32], policy: &Policy) -> u32 {
    let (strategy, weights) = weights_of(&policy.strategy);
    // SAFETY: the sheet and the state are lent as their addresses and lengths; see above.
    unsafe {
        dispatch_bench_put_policy(
            sheet.as_mut_ptr(),
            sheet.len(),
            state.as_mut_ptr(),
            state.len(),
            strategy,
            policy.limit.unwrap_or(u16::MAX),
            policy.tick_rate,
            policy.traffic as u32,
            weights[0],
            weights[1],
            weights[2],
            weights[3],
            weights[4],
            weights[5],
        )
    }
}

/// A stop.
fn put_stop(sheet: &mut [u8], state: &mut [u32], id: u32, position: f64, across: f64) -> u32 {
    // SAFETY: the sheet and the state are lent as their addresses and lengths; see above.
    unsafe {
        dispatch_bench_put_stop(
            sheet.as_mut_ptr(),
            sheet.len(),
            state.as_mut_ptr(),
            state.len(),
            id,
            position,
            across,
        )
    }
}

/// A line.
fn put_line(sheet: &mut [u8], state: &mut [u32], id: u32, serves: u64) -> u32 {
    // SAFETY: the sheet and the state are lent as their addresses and lengths; see above.
    unsafe {
        dispatch_bench_put_line(
            sheet.as_mut_ptr(),
            sheet.len(),
            state.as_mut_ptr(),
            state.len(),
            id,
            serves,
        )
    }
}

/// A car.
fn put_car(sheet: &mut [u8], state: &mut [u32], car: &Car) -> u32 {
    let (phase, stop) = phase_of(car.phase);
    // SAFETY: the sheet and the state are lent as their addresses and lengths; see above.
    unsafe {
        dispatch_bench_put_car(
            sheet.as_mut_ptr(),
            sheet.len(),
            state.as_mut_ptr(),
            state.len(),
            car.id,
            car.line,
            phase,
            stop,
            id(car.target),
            car.idle_listed.into(),
            car.going_up.into(),
            car.going_down.into(),
            (car.sweep == SweepDirection::Down).into(),
            (car.mode == SweepMode::Lenient).into(),
            car.position,
            car.across,
            car.max_speed,
            car.capacity,
            car.load,
            car.up_threshold.is_some().into(),
            car.up_threshold.unwrap_or(0.0),
            car.down_threshold.is_some().into(),
            car.down_threshold.unwrap_or(0.0),
            car.transition_ticks,
            car.open_ticks,
            car.restricted,
            car.car_calls,
        )
    }
}

/// A rider in a car.
fn put_aboard(
    sheet: &mut [u8],
    state: &mut [u32],
    car: u32,
    destination: Option<NonZeroU32>,
) -> u32 {
    // SAFETY: the sheet and the state are lent as their addresses and lengths; see above.
    unsafe {
        dispatch_bench_put_aboard(
            sheet.as_mut_ptr(),
            sheet.len(),
            state.as_mut_ptr(),
            state.len(),
            car,
            id(destination),
        )
    }
}

/// A rider at a stop.
fn put_waiting(sheet: &mut [u8], state: &mut [u32], rider: &Waiting) -> u32 {
    // SAFETY: the sheet and the state are lent as their addresses and lengths; see above.
    unsafe {
        dispatch_bench_put_waiting(
            sheet.as_mut_ptr(),
            sheet.len(),
            state.as_mut_ptr(),
            state.len(),
            rider.stop,
            id(rider.required_line),
            id(rider.destination),
            rider.weight,
            rider.wait_ticks,
        )
    }
}

/// A stop's demand.
fn put_demand(sheet: &mut [u8], state: &mut [u32], stop: u32, riding: u16, call: bool) -> u32 {
    // SAFETY: the sheet and the state are lent as their addresses and lengths; see above.
    unsafe {
        dispatch_bench_put_demand(
            sheet.as_mut_ptr(),
            sheet.len(),
            state.as_mut_ptr(),
            state.len(),
            stop,
            riding,
            call.into(),
        )
    }
}

/// A closed landing.
fn put_closed(sheet: &mut [u8], state: &mut [u32], stop: u32) -> u32 {
    // SAFETY: the sheet and the state are lent as their addresses and lengths; see above.
    unsafe {
        dispatch_bench_put_closed(
            sheet.as_mut_ptr(),
            sheet.len(),
            state.as_mut_ptr(),
            state.len(),
            stop,
        )
    }
}

/// The bytes of the sheet whose records the state counts, once it is finished. The state is one that `start` and `put` left over this sheet, so the
/// answer is 0.
pub fn finish(sheet: &mut [u8], state: &[u32]) -> usize {
    let mut bytes = 0;
    // SAFETY: the sheet and the state are lent as their addresses and lengths, the number of bytes is a local; see above.
    unsafe {
        dispatch_bench_finish(
            sheet.as_mut_ptr(),
            sheet.len(),
            state.as_ptr(),
            state.len(),
            &mut bytes,
        )
    };
    bytes as usize
}

/// 0 where the record stands behind `count` others and is counted, or 2 or 7.
pub fn put_weight(store: &mut [u8], count: &mut u16, entry: &StoreEntry) -> u32 {
    // SAFETY: the store is lent as its address and its length, the count as the address of one `u16`; see above.
    unsafe {
        dispatch_bench_put_weight(
            store.as_mut_ptr(),
            store.len(),
            count,
            entry.setting,
            entry.start,
            entry.issue,
            entry.value,
        )
    }
}

/// 0 where the `width` bits from bit `at` are those of `value`, or 8 or 2.
pub fn put_field(sheet: &mut [u8], at: u32, width: u32, value: u64) -> u32 {
    // SAFETY: the sheet is lent as its address and its length; see above.
    unsafe { dispatch_bench_put_field(sheet.as_mut_ptr(), sheet.len(), at, width, value) }
}
