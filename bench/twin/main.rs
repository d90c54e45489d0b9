//! The program `settled` once more, in plain Rust: what the proved one is measured against.
//!
//! Usage: twin [ROWS [counts]] < FILE
//! ROWS is 4096 if not given; with `counts` only the last line is printed.

mod file;
mod kind;
mod reasoner;
mod rules;
mod settled;
mod statement;

use std::io::{self, BufWriter, Read, Write};
use std::process::ExitCode;

use file::Refused;
use kind::{Kind, Letter, Odds, Tally};
use reasoner::{Reasoner, Stand};

struct Options {
    rows: usize,
    lines: bool,
}

fn load<K: Kind>(file: &[u8], rows: usize) -> Result<Reasoner<K>, Refused> {
    let blocks = file::checked_blocks::<K>(file)?;
    let sizes = file::sizes(blocks[0])?;
    let mut reasoner = Reasoner::begin(sizes, rows).map_err(|_| Refused {
        number: 3,
        block: 0,
        record: 0,
    })?;
    for entry in file::entries::<K>(&blocks) {
        let (statement, grade, block, record) = entry?;
        let refused = |number| Refused {
            number,
            block,
            record,
        };
        if !statement.fits(&sizes) {
            return Err(refused(4));
        }
        if statement.is_misplaced(&sizes) {
            return Err(refused(5));
        }
        reasoner.accept(statement, grade).map_err(|_| refused(7))?;
    }
    Ok(reasoner)
}

fn run<K: Kind>(file: &[u8], options: &Options) -> io::Result<ExitCode> {
    let mut out = BufWriter::new(io::stdout().lock());
    let status = match load::<K>(file, options.rows) {
        Err(Refused {
            number,
            block,
            record,
        }) => {
            writeln!(out, "refused {number} block {block} record {record}")?;
            ExitCode::FAILURE
        }
        Ok(mut reasoner) => {
            let stand = match reasoner.settle() {
                Stand::Ended => "ended",
                Stand::Full => "full",
            };
            if options.lines {
                print_lines::<K>(&mut out, &reasoner)?;
            }
            writeln!(out, "{stand} {}", reasoner.settled().len())?;
            ExitCode::SUCCESS
        }
    };
    out.flush()?;
    Ok(status)
}

fn print_lines<K: Kind>(out: &mut impl Write, reasoner: &Reasoner<K>) -> io::Result<()> {
    for &(statement, grade) in reasoner.settled() {
        let [a, b, c, d, e] = statement.names;
        writeln!(
            out,
            "{} {a} {b} {c} {d} {e} {}",
            statement.shape,
            K::encode(grade)
        )?;
    }
    Ok(())
}

fn read_options() -> Option<Options> {
    let mut words = std::env::args().skip(1);
    let rows = words.next().map_or(Some(4096), |word| word.parse().ok())?;
    let lines = words.next().is_none();
    Some(Options { rows, lines })
}

fn run_input(options: &Options) -> io::Result<ExitCode> {
    let mut file = Vec::new();
    io::stdin()
        .take(file::LONGEST as u64 + 1)
        .read_to_end(&mut file)?;
    match file.get(4) {
        Some(&Letter::BYTE) => run::<Letter>(&file, options),
        Some(&Odds::BYTE) => run::<Odds>(&file, options),
        _ => run::<Tally>(&file, options),
    }
}

fn main() -> ExitCode {
    let Some(options) = read_options() else {
        return ExitCode::FAILURE;
    };
    run_input(&options).unwrap_or(ExitCode::FAILURE)
}
