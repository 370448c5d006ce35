//! The archive's version is the one that include/masks.h states.

use crate::ffi;

const HEADER: &str = include_str!("../../include/masks.h");

/// Compares them, and prints the version with its number.
pub fn compare() -> Result<(), String> {
    let stated = HEADER
        .lines()
        .find_map(|line| line.strip_prefix("#define MASKS_VERSION \"")?.strip_suffix('"'))
        .ok_or("FAILED: include/masks.h states no version")?;
    let number = number_of(stated).ok_or_else(|| format!("FAILED: {stated} is no version"))?;
    let answered = ffi::version();
    if answered != number {
        return Err(format!("FAILED: masks_version answers {answered}, but {stated} is {number}"));
    }
    println!("version: {stated} is {number}");
    Ok(())
}

/// The number of a version: its major times 1,000,000, its minor times 1,000, and its patch.
fn number_of(version: &str) -> Option<u32> {
    let parts: Option<Vec<u32>> = version.split('.').map(|part| part.parse().ok()).collect();
    match parts?[..] {
        [major @ 0..1_000, minor @ 0..1_000, patch @ 0..1_000] => {
            Some(major * 1_000_000 + minor * 1_000 + patch)
        }
        _ => None,
    }
}
