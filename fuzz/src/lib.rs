//! What libFuzzer calls. An input is a case for one exported call (`input`); the library and the reference are asked,
//! and at a difference the program ends with what was asked and both answers.

mod input;
mod mutation;
mod seeds;

use input::Input;
use spargolutta_tests::calls::{Rooms, CALLS};
use spargolutta_tests::random::Random;
use std::cell::RefCell;
use std::collections::BTreeMap;
use std::path::Path;
use std::sync::{Mutex, OnceLock};
use std::{env, fs, process, slice};

extern "C" {
    /// libFuzzer's own mutations of bytes.
    fn LLVMFuzzerMutate(data: *mut u8, size: usize, most: usize) -> usize;
    fn atexit(at_end: extern "C" fn()) -> i32;
}

/// How often each number of each call came.
static NUMBERS: Mutex<[BTreeMap<u32, u64>; CALLS.len()]> =
    Mutex::new([const { BTreeMap::new() }; CALLS.len()]);

extern "C" fn print_numbers() {
    for (call, numbers) in CALLS.iter().zip(NUMBERS.lock().expect("one thread").iter()) {
        let each: Vec<String> = numbers.iter().map(|(number, times)| format!("{number}:{times}")).collect();
        println!("{}: {} compared ({})", call.name, numbers.values().sum::<u64>(), each.join(" "));
    }
}

/// Writes the seeds into the folder that SEEDS names, before libFuzzer reads it.
#[no_mangle]
pub extern "C" fn LLVMFuzzerInitialize(_: *const i32, _: *const *const *const u8) -> i32 {
    assert_eq!(unsafe { atexit(print_numbers) }, 0);
    if let Some(folder) = env::var_os("SEEDS") {
        for (k, seed) in seeds::seeds().iter().enumerate() {
            let name = format!("{}-{k}", CALLS[seed.call].name);
            fs::write(Path::new(&folder).join(name), seed.bytes()).expect("a folder for the seeds");
        }
    }
    0
}

/// # Safety
/// libFuzzer hands over `size` bytes.
#[no_mangle]
pub unsafe extern "C" fn LLVMFuzzerTestOneInput(data: *const u8, size: usize) -> i32 {
    thread_local!(static ROOMS: RefCell<Rooms> = RefCell::new(Rooms::new()));
    let bytes = if size == 0 { &[] } else { slice::from_raw_parts(data, size) };
    let Some(Input { call, edge, case }) = Input::of(bytes) else { return 0 };
    match ROOMS.with_borrow_mut(|rooms| rooms.compare(&CALLS[call], &case, edge)) {
        Ok(number) => *NUMBERS.lock().expect("one thread")[call].entry(number).or_default() += 1,
        Err(difference) => {
            eprintln!("{difference}");
            process::abort();
        }
    }
    0
}

/// The case changed, half of the time; the other half is left to libFuzzer. Texts have so many forms that they would
/// take most of a run: half of them give way to a seed.
fn changed(random: &mut Random, bytes: &[u8]) -> Option<Vec<u8>> {
    static SEEDS: OnceLock<Vec<Input>> = OnceLock::new();
    let mut input = Input::of(bytes)?;
    if CALLS[input.call].name == "import" && random.once_in(2) {
        let seeds = SEEDS.get_or_init(seeds::seeds);
        input = seeds[random.below(seeds.len())].clone();
    } else if random.once_in(2) {
        return None;
    }
    mutation::mutate(random, &mut input);
    Some(input.bytes())
}

/// # Safety
/// libFuzzer hands over `size` bytes in room for `most`.
#[no_mangle]
pub unsafe extern "C" fn LLVMFuzzerCustomMutator(
    data: *mut u8,
    size: usize,
    most: usize,
    seed: u32,
) -> usize {
    match changed(&mut Random::new(seed.into()), slice::from_raw_parts(data, size)) {
        Some(bytes) if bytes.len() <= most => {
            data.copy_from_nonoverlapping(bytes.as_ptr(), bytes.len());
            bytes.len()
        }
        _ => LLVMFuzzerMutate(data, size, most),
    }
}
