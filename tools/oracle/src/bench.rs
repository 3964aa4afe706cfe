//! The bench under comparison: the functions of the static library `dispatch_bench`, loaded from a shared
//! object made of it, or a stand-in inside this process.

use std::ffi::{CString, c_char, c_int, c_void};

/// Which functions a bench has.
#[derive(Clone, Copy, Debug, Default, PartialEq)]
pub struct Has {
    pub read: bool,
    pub pass: bool,
    pub choose: bool,
    pub pending: bool,
}

/// What stands in the offset before it is lent.
pub const KEPT: u64 = 0xa5a5_a5a5_a5a5;

/// What a pass is lent, and what it leaves there.
#[derive(Clone, Debug, PartialEq)]
pub struct Lent {
    pub decisions: Vec<u32>,
    pub matrix: Vec<u64>,
    pub sweeps: Vec<u8>,
    pub cars: u64,
    pub stops: u64,
    pub total: u64,
    pub ranked: u64,
    pub held: u64,
    pub offset: u64,
}

impl Lent {
    /// Buffers of the given lengths with contents that no pass would write.
    pub fn new(decisions: usize, matrix: usize, sweeps: usize) -> Self {
        Self {
            decisions: vec![0xdead_beef; decisions],
            matrix: vec![0xdead_beef_dead_beef; matrix],
            sweeps: vec![0xee; sweeps],
            cars: 0xa1a1_a1a1_a1a1,
            stops: 0xa2a2_a2a2_a2a2,
            total: 0xa3a3_a3a3_a3a3,
            ranked: 0xa4a4_a4a4_a4a4,
            held: 0xa7a7_a7a7_a7a7,
            offset: KEPT,
        }
    }
}

/// What the question for the pending stops is lent, and what it leaves there.
#[derive(Clone, Debug, PartialEq)]
pub struct Places {
    pub stops: Vec<u32>,
    pub count: u64,
    pub offset: u64,
}

impl Places {
    /// So many places, with contents that no answer would write.
    pub fn new(places: usize) -> Self {
        Self {
            stops: vec![0xdead_beef; places],
            count: 0xa6a6_a6a6_a6a6,
            offset: KEPT,
        }
    }
}

pub trait Bench {
    fn has(&self) -> Has;
    /// 0 where the sheet is accepted, else the refusal's number; and what stands in the offset, which held KEPT.
    fn read(&mut self, sheet: &[u8]) -> (u32, u64);
    /// 0 for a pass, else the refusal's number.
    fn pass(&mut self, sheet: &[u8], lent: &mut Lent) -> u32;
    /// 1 for a choice, with its columns and total; 0 for none.
    fn choose(
        &mut self,
        cars: usize,
        columns: usize,
        cells: &[u64],
        chosen: &mut [u32],
        total: &mut u64,
    ) -> u32;
    /// 0 with the ids of the pending stops and their number, else the refusal's number.
    fn pending(&mut self, sheet: &[u8], places: &mut Places) -> u32;
}

/// The interface whose pass has the parameters below.
const INTERFACE: u32 = 2;

type Version = unsafe extern "C" fn() -> u32;
type Read = unsafe extern "C" fn(*const u8, usize, *mut u64) -> u32;
type Pass = unsafe extern "C" fn(
    *const u8,
    usize,
    *mut u32,
    usize,
    *mut u64,
    usize,
    *mut u8,
    usize,
    *mut u64,
    *mut u64,
    *mut u64,
    *mut u64,
    *mut u64,
    *mut u64,
) -> u32;
type Choose =
    unsafe extern "C" fn(usize, usize, *const u64, usize, *mut u32, usize, *mut u64) -> u32;
type Pending = unsafe extern "C" fn(*const u8, usize, *mut u32, usize, *mut u64, *mut u64) -> u32;

unsafe extern "C" {
    fn dlopen(path: *const c_char, flags: c_int) -> *mut c_void;
    fn dlsym(library: *mut c_void, name: *const c_char) -> *mut c_void;
    fn dlerror() -> *const c_char;
}

const RTLD_NOW: c_int = 2;

/// Opens the shared object at `path`.
fn open(path: &str) -> Result<*mut c_void, String> {
    let name = CString::new(path).map_err(|e| e.to_string())?;
    let library = unsafe { dlopen(name.as_ptr(), RTLD_NOW) };
    if library.is_null() {
        let message = unsafe { std::ffi::CStr::from_ptr(dlerror()) };
        return Err(message.to_string_lossy().into_owned());
    }
    Ok(library)
}

type TravelTime = unsafe extern "C" fn(f64, f64, f64, f64, f64, *mut f64) -> u32;

/// The travel time of the shared object at `path`.
pub fn travel_time(path: &str) -> Result<impl Fn(&[f64; 5], &mut f64) -> u32, String> {
    let found = unsafe { dlsym(open(path)?, c"dispatch_bench_travel_time".as_ptr()) };
    let function = unsafe { std::mem::transmute::<*mut c_void, Option<TravelTime>>(found) };
    let function = function.ok_or("nothing compared: the library has no travel time")?;
    Ok(move |run: &[f64; 5], time: &mut f64| {
        let [distance, speed, top, up, down] = *run;
        unsafe { function(distance, speed, top, up, down, time) }
    })
}

/// The proved functions.
pub struct Linked {
    read: Option<Read>,
    pass: Option<Pass>,
    choose: Option<Choose>,
    pending: Option<Pending>,
}

impl Linked {
    /// Loads the shared object at `path`; a slice is passed as its address and length.
    pub fn load(path: &str) -> Result<Self, String> {
        let library = open(path)?;
        let find = |name: &std::ffi::CStr| unsafe { dlsym(library, name.as_ptr()) };
        unsafe {
            let version = std::mem::transmute::<*mut c_void, Option<Version>>(find(
                c"dispatch_bench_version",
            ));
            let interface = version.map_or(0, |version| version());
            let pass = match interface {
                INTERFACE => find(c"dispatch_bench_pass"),
                _ => std::ptr::null_mut(),
            };
            if pass.is_null() {
                println!(
                    "the library's interface is {interface}, not {INTERFACE}: its pass is not called"
                );
            }
            Ok(Self {
                read: std::mem::transmute::<*mut c_void, Option<Read>>(find(
                    c"dispatch_bench_read",
                )),
                pass: std::mem::transmute::<*mut c_void, Option<Pass>>(pass),
                choose: std::mem::transmute::<*mut c_void, Option<Choose>>(find(
                    c"dispatch_bench_choose",
                )),
                pending: std::mem::transmute::<*mut c_void, Option<Pending>>(find(
                    c"dispatch_bench_pending",
                )),
            })
        }
    }
}

impl Bench for Linked {
    fn has(&self) -> Has {
        Has {
            read: self.read.is_some(),
            pass: self.pass.is_some(),
            choose: self.choose.is_some(),
            pending: self.pending.is_some(),
        }
    }

    fn read(&mut self, sheet: &[u8]) -> (u32, u64) {
        let mut offset = KEPT;
        let number = unsafe { self.read.unwrap()(sheet.as_ptr(), sheet.len(), &mut offset) };
        (number, offset)
    }

    fn pass(&mut self, sheet: &[u8], lent: &mut Lent) -> u32 {
        unsafe {
            self.pass.unwrap()(
                sheet.as_ptr(),
                sheet.len(),
                lent.decisions.as_mut_ptr(),
                lent.decisions.len(),
                lent.matrix.as_mut_ptr(),
                lent.matrix.len(),
                lent.sweeps.as_mut_ptr(),
                lent.sweeps.len(),
                &mut lent.cars,
                &mut lent.stops,
                &mut lent.total,
                &mut lent.ranked,
                &mut lent.held,
                &mut lent.offset,
            )
        }
    }

    fn choose(
        &mut self,
        cars: usize,
        columns: usize,
        cells: &[u64],
        chosen: &mut [u32],
        total: &mut u64,
    ) -> u32 {
        unsafe {
            self.choose.unwrap()(
                cars,
                columns,
                cells.as_ptr(),
                cells.len(),
                chosen.as_mut_ptr(),
                chosen.len(),
                total,
            )
        }
    }

    fn pending(&mut self, sheet: &[u8], places: &mut Places) -> u32 {
        unsafe {
            self.pending.unwrap()(
                sheet.as_ptr(),
                sheet.len(),
                places.stops.as_mut_ptr(),
                places.stops.len(),
                &mut places.count,
                &mut places.offset,
            )
        }
    }
}
