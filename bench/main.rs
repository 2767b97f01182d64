//! The port's time as a part of the Rust's: below 1 is faster. The best of several rounds of each,
//! taken in turns, so that both meet the same machine. Lent buffers are not cleared between calls.

mod frames;
mod reader;
mod writers;

use dalybms_lib::protocol::Address::Host;
use dalybms_lib::protocol::*;
use frames::reply;
use std::hint::black_box;
use std::process::ExitCode;
use std::sync::OnceLock;
use std::time::Instant;

const ROUNDS: usize = 41;
const CALLS: u32 = 5_000;

#[allow(dead_code)]
#[repr(C)]
struct FrameKindTold {
    number: u8,
    echo: bool,
}

#[allow(dead_code)]
#[repr(C)]
struct SocTold {
    number: u8,
    fields: [f32; 3],
}

#[allow(dead_code)]
#[repr(C)]
struct MosfetStatusTold {
    number: u8,
    bytes: [u8; 4],
    capacity_ah: f32,
}

#[allow(dead_code)]
#[repr(C)]
struct CellVoltageRangeTold {
    number: u8,
    fields: [f32; 4],
}

#[repr(C)]
struct TemperatureRangeTold([u8; 5]);

#[allow(dead_code)]
#[repr(C)]
struct StatusTold {
    bytes: [u8; 14],
    cycles: u16,
}

#[repr(C)]
struct ListTold {
    number: u8,
    count: usize,
}

extern "C" {
    fn daly_frame_check(p: *const u8, len: usize, command: u8) -> FrameKindTold;
    fn daly_request(command: u8, enable: bool, soc_percent: f32, out: *mut [u8; 13]) -> u8;
    fn daly_soc(p: *const u8, len: usize) -> SocTold;
    fn daly_cell_voltage_range(p: *const u8, len: usize) -> CellVoltageRangeTold;
    fn daly_temperature_range(p: *const u8, len: usize) -> TemperatureRangeTold;
    fn daly_mosfet_status(p: *const u8, len: usize) -> MosfetStatusTold;
    fn daly_status(p: *const u8, len: usize) -> StatusTold;
    fn daly_cell_voltages(p: *const u8, len: usize, n: u8, out: *mut f32, room: usize) -> ListTold;
    fn daly_cell_temperatures(
        p: *const u8,
        len: usize,
        n: u8,
        out: *mut i32,
        room: usize,
    ) -> ListTold;
    fn daly_cell_balance_state(
        p: *const u8,
        len: usize,
        n: u8,
        out: *mut bool,
        room: usize,
    ) -> ListTold;
    fn daly_error_codes(p: *const u8, len: usize, out: *mut u8, room: usize) -> ListTold;
}

fn timed(call: &mut dyn FnMut()) -> f64 {
    let began = Instant::now();
    for _ in 0..CALLS {
        call();
    }
    began.elapsed().as_nanos() as f64 / f64::from(CALLS)
}

/// What is to be done with each call: both sides timed, its name printed, or one side of one call run.
enum Task {
    Time,
    Name,
    Run { call: String, rust: bool },
}

static TASK: OnceLock<Task> = OnceLock::new();

/// The calls of one side, for a tool that counts instructions between entry and exit.
#[inline(never)]
fn counted_calls(call: &mut dyn FnMut()) {
    for _ in 0..CALLS {
        call();
    }
}

fn compare(name: &str, mut rust: impl FnMut(), mut port: impl FnMut()) {
    match TASK.get() {
        Some(Task::Name) => println!("{name}"),
        Some(Task::Run { call, rust: true }) if call == name => counted_calls(&mut rust),
        Some(Task::Run { call, rust: false }) if call == name => counted_calls(&mut port),
        Some(Task::Run { .. }) => {}
        _ => time_both(name, &mut rust, &mut port),
    }
}

fn time_both(name: &str, rust: &mut dyn FnMut(), port: &mut dyn FnMut()) {
    let (mut best_rust, mut best_port) = (f64::MAX, f64::MAX);
    for _ in 0..ROUNDS {
        best_rust = best_rust.min(timed(rust));
        best_port = best_port.min(timed(port));
    }
    let ratio = best_port / best_rust;
    println!("| {name:<28} | {best_rust:>6.1} | {best_port:>6.1} | {ratio:.2} |");
}

fn request(name: &str, command: u8, rust: impl Fn() -> Vec<u8>) {
    let mut out = [0; 13];
    compare(
        &format!("request, {name}"),
        || drop(black_box(rust())),
        || unsafe {
            let command = black_box(command);
            black_box(daly_request(command, true, black_box(50.5), &mut out));
        },
    );
}

fn requests() {
    request("Soc", 0x90, || Soc::request(Host));
    request("CellVoltageRange", 0x91, || CellVoltageRange::request(Host));
    request("TemperatureRange", 0x92, || TemperatureRange::request(Host));
    request("MosfetStatus", 0x93, || MosfetStatus::request(Host));
    request("Status", 0x94, || Status::request(Host));
    request("CellVoltages", 0x95, || CellVoltages::request(Host));
    request("CellTemperatures", 0x96, || CellTemperatures::request(Host));
    request("CellBalanceState", 0x97, || CellBalanceState::request(Host));
    request("ErrorCode", 0x98, || ErrorCode::request(Host));
    request("SetDischargeMosfet", 0xD9, || {
        SetDischargeMosfet::request(Host, black_box(true))
    });
    request("SetChargeMosfet", 0xDA, || {
        SetChargeMosfet::request(Host, black_box(true))
    });
    request("SetSoc", 0x21, || SetSoc::request(Host, black_box(50.5)));
    request("BmsReset", 0x00, || BmsReset::request(Host));
}

/// A decoder of one frame, of a reply that it takes.
fn record<T, U>(
    name: &str,
    command: u8,
    mode: Option<u8>,
    rust: impl Fn(&[u8]) -> T,
    port: unsafe extern "C" fn(*const u8, usize) -> U,
) {
    let frame = reply(command, 1, mode);
    compare(
        name,
        || drop(black_box(rust(black_box(&frame)))),
        || unsafe {
            black_box(port(black_box(frame.as_ptr()), 13));
        },
    );
}

/// The four replies that are only checked are this check with their command.
unsafe extern "C" fn reset_check(p: *const u8, len: usize) -> FrameKindTold {
    // SAFETY: the caller's.
    unsafe { daly_frame_check(p, len, 0x00) }
}

fn one_frame() {
    record("frame check", 0x00, None, BmsReset::decode, reset_check);
    record("Soc", 0x90, None, Soc::decode, daly_soc);
    record(
        "CellVoltageRange",
        0x91,
        None,
        CellVoltageRange::decode,
        daly_cell_voltage_range,
    );
    record(
        "TemperatureRange",
        0x92,
        None,
        TemperatureRange::decode,
        daly_temperature_range,
    );
    record(
        "MosfetStatus",
        0x93,
        Some(1),
        MosfetStatus::decode,
        daly_mosfet_status,
    );
    record("Status", 0x94, None, Status::decode, daly_status);
}

fn stored(told: ListTold) {
    assert_eq!(told.number, 0);
    black_box(told.count);
}

fn numbered() {
    for (n, frames) in [(255, 85), (16, 6), (4, 2)] {
        let cells = reply(0x95, frames, None);
        let mut volts = [0.0; 255];
        compare(
            &format!("{n} voltages"),
            || drop(black_box(CellVoltages::decode(black_box(&cells), n))),
            || unsafe {
                let p = black_box(cells.as_ptr());
                stored(daly_cell_voltages(
                    p,
                    cells.len(),
                    n,
                    volts.as_mut_ptr(),
                    255,
                ));
            },
        );
    }
    for (n, frames) in [(254, 37), (16, 3), (4, 1)] {
        let sensors = reply(0x96, frames, None);
        let mut degrees = [0; 255];
        compare(
            &format!("{n} temperatures"),
            || drop(black_box(CellTemperatures::decode(black_box(&sensors), n))),
            || unsafe {
                let p = black_box(sensors.as_ptr());
                stored(daly_cell_temperatures(
                    p,
                    sensors.len(),
                    n,
                    degrees.as_mut_ptr(),
                    255,
                ));
            },
        );
    }
}

fn bits() {
    let balance = reply(0x97, 1, None);
    let mut flags = [false; 48];
    compare(
        "48 balance flags",
        || drop(black_box(CellBalanceState::decode(black_box(&balance), 48))),
        || unsafe {
            let p = black_box(balance.as_ptr());
            stored(daly_cell_balance_state(p, 13, 48, flags.as_mut_ptr(), 48));
        },
    );
    let errors = reply(0x98, 1, None);
    let mut positions = [0; 48];
    compare(
        "faults",
        || drop(black_box(ErrorCode::decode(black_box(&errors)))),
        || unsafe {
            let p = black_box(errors.as_ptr());
            stored(daly_error_codes(p, 13, positions.as_mut_ptr(), 48));
        },
    );
}

fn all_calls(task: Task) {
    TASK.get_or_init(|| task);
    requests();
    one_frame();
    numbered();
    bits();
    writers::all();
}

fn calls() {
    println!("| nanoseconds a call | Rust | port | ratio |\n|---|---|---|---|");
    all_calls(Task::Time);
}

fn main() -> ExitCode {
    let words: Vec<String> = std::env::args().skip(1).collect();
    match words.first().map(String::as_str) {
        None => {
            calls();
            println!();
            reader::table();
            println!();
            reader::flat();
        }
        Some("calls") => calls(),
        Some("reader") => reader::table(),
        Some("flat") => reader::flat(),
        Some("names") => reader::names(),
        Some("call-names") => {
            println!("{CALLS}");
            all_calls(Task::Name);
        }
        Some("call") if words.len() == 3 => all_calls(Task::Run {
            call: words[1].clone(),
            rust: words[2] == "rust",
        }),
        Some("one") if reader::one(&words[1..]).is_some() => {}
        _ => {
            eprintln!("bench: calls, reader, flat, names, one NAME FORM SIZE, call-names, or call NAME rust|port");
            return ExitCode::FAILURE;
        }
    }
    ExitCode::SUCCESS
}
