//! The commands.

use crate::programs::program::Program;
use crate::programs::{orders, scripts, sheets};
use crate::samples::{call_samples, cases, script_cases, sheet_cases, sheet_samples, store_cases};
use crate::{compare, model, original, speed};
use std::error::Error;
use std::io::Read;
use std::path::Path;

const USAGE: &str =
    "usage: oracle all|leb128|utf8|card|device|queued|courier|contact|received|stores [SEED [TIMES]]
       oracle samples DIR
       oracle store-cases|sheet-cases DIR
       oracle program-samples DIR
       oracle script-cases DIR SCRIPT
       oracle speed|names-speed|insert-speed|restore-speed [large]
       oracle scripts|transcript|scripts-rust|sheets|sheets-rust SEED TIMES
       oracle scripts-check|orders-check|sheets-check SEED TIMES PROGRAM [WORD..]
       oracle sheets-speed|calls-speed PROGRAM [WORD..]
       oracle replay|statement|statement-model (from standard input)";

/// Whether nothing differed.
type Done = Result<bool, Box<dyn Error>>;

/// Runs a command.
pub fn run(words: &[&str]) -> Done {
    if let Some(done) = of_programs(words).or_else(|| of_speed(words)) {
        return done;
    }
    match *words {
        ["samples", folder] => cases::write(folder.as_ref()).map(|()| true),
        ["store-cases", folder] => store_cases::write(folder.as_ref()).map(|()| true),
        [name] => compared(name, 1, 1),
        [name, seed] => compared(name, seed.parse()?, 1),
        [name, seed, times] => compared(name, seed.parse()?, times.parse()?),
        _ => Err(USAGE.into()),
    }
}

fn compared(name: &str, seed: u64, times: usize) -> Done {
    compare::run(name, seed, times).ok_or(USAGE.into())
}

/// Runs a command about time, if it is one of these.
fn of_speed(words: &[&str]) -> Option<Done> {
    match *words {
        ["speed"] => speed::rows::run(),
        ["names-speed"] => speed::names::run(),
        ["insert-speed"] => speed::insert::run(),
        ["restore-speed"] => speed::restore::run(),
        ["restore-speed", "large"] => speed::restore::run_large(),
        ["calls-speed", ref program @ ..] if !program.is_empty() => {
            speed::calls::run(Program { words: program });
        }
        ["sheets-speed", ref program @ ..] if !program.is_empty() => {
            speed::sheets::run(Program { words: program });
        }
        _ => return None,
    }
    Some(Ok(true))
}

/// Runs a command about lists of calls or about sheets, if it is one of these.
fn of_programs(words: &[&str]) -> Option<Done> {
    match *words {
        ["program-samples", folder] => Some(program_samples(folder.as_ref())),
        ["replay"] => Some(from_input(|text| {
            model::runner::replay(&String::from_utf8_lossy(text))
        })),
        ["script-cases", folder, script] => Some(write_script_cases(folder.as_ref(), script)),
        ["statement"] => Some(from_input(original::statement::statement)),
        ["statement-model"] => Some(from_input(model::sheet::statement)),
        ["sheet-cases", folder] => Some(sheet_cases::write(folder.as_ref()).map(|()| true)),
        [mode, seed, times] => printed_or_compared(mode, seed, times),
        [mode, seed, times, ref program @ ..] => {
            checked(mode, seed, times, Program { words: program })
        }
        _ => None,
    }
}

fn program_samples(folder: &Path) -> Done {
    std::fs::create_dir_all(folder)?;
    sheet_samples::write(folder)?;
    call_samples::write(folder)?;
    Ok(true)
}

fn write_script_cases(folder: &Path, script: &str) -> Done {
    script_cases::write(folder, &std::fs::read_to_string(script)?)?;
    Ok(true)
}

/// From standard input to standard output.
fn from_input(output: impl Fn(&[u8]) -> String) -> Done {
    let mut input = Vec::new();
    std::io::stdin().read_to_end(&mut input)?;
    print!("{}", output(&input));
    Ok(true)
}

fn printed_or_compared(mode: &str, seed: &str, times: &str) -> Option<Done> {
    let run: fn(u64, u64) -> Done = match mode {
        "scripts" => |seed, times| Ok(scripts::print(seed, times)),
        "transcript" => |seed, times| Ok(scripts::print_transcript(seed, times)),
        "scripts-rust" => |seed, times| Ok(scripts::compare_rust(seed, times)),
        "sheets" => |seed, times| Ok(sheets::print(seed, times)?),
        "sheets-rust" => |seed, times| Ok(sheets::compare_rust(seed, times)),
        _ => return None,
    };
    Some(numbers(seed, times).and_then(|(seed, times)| run(seed, times)))
}

fn checked(mode: &str, seed: &str, times: &str, program: Program) -> Option<Done> {
    let check: fn(u64, u64, Program) -> bool = match mode {
        "scripts-check" => scripts::check,
        "orders-check" => orders::check,
        "sheets-check" => sheets::check,
        _ => return None,
    };
    Some(numbers(seed, times).map(|(seed, times)| check(seed, times, program)))
}

fn numbers(seed: &str, times: &str) -> Result<(u64, u64), Box<dyn Error>> {
    Ok((seed.parse()?, times.parse()?))
}
