//! Run files and probe requests from a seed: the same seed, kind and count give the same files on
//! every machine.

pub mod bad_files;
pub mod corners;
pub mod damage;
pub mod events;
pub mod pairs;
pub mod programs;
pub mod random;
pub mod requests;
pub mod runs;
pub mod story;

use std::fs;
use std::path::Path;

use random::Random;

/// Small enough that a difference is found quickly, large enough that few files are needed.
const REQUESTS_IN_A_FILE: usize = 40;

/// `runs`: COUNT run files. `requests`: files of probe requests, COUNT in all. `limit`: one file of
/// COUNT very small requests, to see where the probe ends.
pub fn generate(kind: &str, seed: u64, count: usize, directory: &Path) -> Result<(), String> {
    fs::create_dir_all(directory).map_err(|error| format!("{}: {error}", directory.display()))?;
    let write = |index: usize, ending: &str, bytes: &[u8]| {
        let path = directory.join(format!("{index:05}.{ending}"));
        fs::write(&path, bytes).map_err(|error| format!("{}: {error}", path.display()))
    };
    match kind {
        "runs" => (0..count).try_for_each(|index| {
            write(index, "run", &runs::run_file(&mut Random::new(seed, index), index))
        }),
        "requests" => (0..count.div_ceil(REQUESTS_IN_A_FILE)).try_for_each(|index| {
            let left = count - index * REQUESTS_IN_A_FILE;
            let here = left.min(REQUESTS_IN_A_FILE);
            let first = index * REQUESTS_IN_A_FILE;
            write(index, "req", &requests::file(&mut Random::new(seed, index), first, here))
        }),
        "limit" => write(0, "req", &requests::small(&mut Random::new(seed, 0), count)),
        _ => Err(format!("`{kind}` is not runs, requests or limit")),
    }
}
