//! Kieferntuch's second program. It reads the paper's definitions as plainly as they stand, slow
//! and without cleverness, so that the product can be held against it.
//!
//!     second list  < TABLE
//!         Plans the table on standard input and prints the paper's listing, or its refused line.
//!     second run TABLE ARRIVALS F W
//!         Runs the table in the file TABLE. The file ARRIVALS has a line `tick row l1 l2 l3` for
//!         each arrival; # begins a comment. Prints a lane for each processor over the W ticks
//!         from F on, the worst responses beside the bounds, and the counts, or the refused line.
//!     second paper [--seed N]
//!         Holds the paper's own figures and checks this program against itself.
//!     second compare --product COMMAND [--list COMMAND] [--seed N] [--inputs N]
//!         The same, and then compares the product with this program: its reader on N inputs or
//!         more, its planner on 370,000, of which more than 200,000 are refused with 11, its listing
//!         program, if one is given, on some 1,000, and its run on some 25,000. And it holds more
//!         than 5,000 runs of planned tables to the bounds, with arrivals that are aimed at them. A
//!         COMMAND is a path, or words separated by spaces. Both programs are x86-64 code, so after
//!         second/build it is
//!         --product "tools/run target/second/product" --list "tools/run target/bin/list"
//!         in the repository's root.
//!     second bench --half COMMAND [--half COMMAND ..] [--seed N]
//!         Times the product's reader and its planner beside those in fast.rs, on tables that are
//!         read or planned and on tables that are refused, and its run beside the one in
//!         fast_run.rs, on the longest runs there are. second/bench/build makes the programs that do
//!         so, for either processor; second/bench/run builds them and times all. With the program of
//!         another build behind a further --half, that one is timed too, as before a change.
//!
//! A seed makes the random inputs the same again; without one it comes from the clock. The exit
//! code is 0, or 1 if a figure, a check or a comparison fails, or 2 if the call makes no sense.

mod aimed;
mod answer;
mod bench;
mod bits;
mod bound;
mod checks;
mod compare;
mod fast;
mod fast_run;
mod inputs;
mod lanes;
mod listing;
mod machine;
mod options;
mod paper;
mod plan;
mod product;
mod program;
mod random;
mod rank;
mod raw;
mod run;
mod run_call;
mod runs;
mod sheet;
mod table;
mod workloads;

use options::Options;
use product::Product;
use std::io::{self, Read, Write};
use std::process::ExitCode;

const USAGE: &str = "usage: second list < TABLE
       second run TABLE ARRIVALS F W
       second paper [--seed N]
       second compare --product COMMAND [--list COMMAND] [--seed N] [--inputs N]
       second bench --half COMMAND [--half COMMAND ..] [--seed N]";

/// Why a command ended without success.
enum Trouble {
    /// The call makes no sense, or something it needs is missing.
    Call(String),
    /// Something does not hold.
    Fails(String),
}

fn main() -> ExitCode {
    let words: Vec<String> = std::env::args().skip(1).collect();
    let words: Vec<&str> = words.iter().map(String::as_str).collect();
    match command(&words) {
        Ok(()) => ExitCode::SUCCESS,
        Err(Trouble::Fails(why)) => {
            println!("{why}");
            ExitCode::from(1)
        }
        Err(Trouble::Call(why)) => {
            eprintln!("{why}");
            ExitCode::from(2)
        }
    }
}

fn command(words: &[&str]) -> Result<(), Trouble> {
    match words {
        ["list"] => print(&listing::list(&standard_input()?)),
        ["run", table, arrivals, f, w] => run_files(table, arrivals, f, w),
        ["paper", rest @ ..] => {
            let options = Options::read(rest, &["--seed"]).ok_or_else(usage)?;
            hold(&options)
        }
        ["compare", rest @ ..] => {
            let known = ["--product", "--list", "--seed", "--inputs"];
            let options = Options::read(rest, &known).ok_or_else(usage)?;
            compare_product(&options)
        }
        ["bench", rest @ ..] => {
            let options = Options::read(rest, &["--half", "--seed"]).ok_or_else(usage)?;
            time_halves(&options)
        }
        _ => Err(usage()),
    }
}

fn usage() -> Trouble {
    Trouble::Call(USAGE.to_string())
}

fn print(text: &str) -> Result<(), Trouble> {
    let written = io::stdout().write_all(text.as_bytes());
    written.map_err(|why| Trouble::Call(format!("standard output: {why}")))
}

/// No more bytes than the listing takes.
fn standard_input() -> Result<Vec<u8>, Trouble> {
    let mut bytes = Vec::new();
    let taken = io::stdin()
        .take(listing::TAKEN as u64)
        .read_to_end(&mut bytes);
    match taken {
        Ok(_) => Ok(bytes),
        Err(why) => Err(Trouble::Call(format!("standard input: {why}"))),
    }
}

fn run_files(table: &str, arrivals: &str, f: &str, w: &str) -> Result<(), Trouble> {
    let (Ok(f), Ok(w)) = (f.parse(), w.parse()) else {
        return Err(usage());
    };
    let of = |path: &str, why: String| Trouble::Call(format!("{path}: {why}"));
    let bytes = std::fs::read(table).map_err(|why| of(table, why.to_string()))?;
    let text = std::fs::read_to_string(arrivals).map_err(|why| of(arrivals, why.to_string()))?;
    let list = lanes::read_arrivals(&text).map_err(|why| of(arrivals, why))?;
    print(&lanes::text(&bytes, &list, f, w))
}

/// The paper's figures and the checks of this program against itself.
fn hold(options: &Options) -> Result<(), Trouble> {
    println!("seed {}", options.seed);
    let with_seed = |why| Trouble::Fails(format!("seed {}\nfails: {why}", options.seed));
    let figures = paper::hold().map_err(with_seed)?;
    println!("paper: {figures} groups of figures hold");
    println!("{}", checks::two_ways(options.seed).map_err(with_seed)?);
    println!("{}", checks::runs(options.seed).map_err(with_seed)?);
    Ok(())
}

fn compare_product(options: &Options) -> Result<(), Trouble> {
    let Some(command) = &options.product else {
        let missing = "second compare: --product COMMAND is missing; second/build makes \
                       target/second/product, and tools/run runs it";
        return Err(Trouble::Call(missing.to_string()));
    };
    let product = Product::start(command);
    let product = product.map_err(|why| Trouble::Call(format!("{command}: {why}")))?;
    hold(options)?;
    compare::all(options, product).map_err(|mismatch| {
        let seed = options.seed;
        Trouble::Fails(format!("seed {seed}\n{mismatch}"))
    })
}

fn time_halves(options: &Options) -> Result<(), Trouble> {
    if options.halves.is_empty() {
        return Err(usage());
    }
    println!("seed {}", options.seed);
    bench::bench(options).map_err(Trouble::Fails)
}
