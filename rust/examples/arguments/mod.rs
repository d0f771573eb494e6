//! The arguments of both examples: `[X Y Z [FREQUENCY]]`, behind which an example may take more.

use koshirga::Vector3;
use std::process::exit;

const DIRECTION: Vector3 = Vector3::new(0.3, -0.5, 0.8);

pub struct Arguments {
    pub direction: Vector3,
    pub frequency: u32,
}

/// What `parse` makes of the arguments. Numbers that the engine refuses are left to it.
pub fn read<T>(
    example: &str,
    usage: &str,
    parse: impl FnOnce(&[String]) -> Result<T, String>,
) -> T {
    let given: Vec<String> = std::env::args().skip(1).collect();
    parse(&given).unwrap_or_else(|message| {
        eprintln!("{example}: {message}\nusage: {example} {usage}");
        exit(2)
    })
}

/// The arguments, or those of the example where there are none.
pub fn parse(given: &[String], frequency: u32) -> Result<Arguments, String> {
    let (direction, frequency) = match given {
        [] => (DIRECTION, frequency),
        [x, y, z] => (vector(x, y, z)?, frequency),
        [x, y, z, n] => (vector(x, y, z)?, number(n)?),
        _ => return Err(format!("{} arguments", given.len())),
    };
    Ok(Arguments {
        direction,
        frequency,
    })
}

fn vector(x: &str, y: &str, z: &str) -> Result<Vector3, String> {
    Ok(Vector3::new(number(x)?, number(y)?, number(z)?))
}

pub fn number<T: std::str::FromStr>(text: &str) -> Result<T, String> {
    text.parse().map_err(|_| format!("{text:?} is no number"))
}
