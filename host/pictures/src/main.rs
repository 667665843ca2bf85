//! `host/show`: the states of a script as pictures.

mod anatomy;
mod picture;
mod play;
#[path = "../../calls/src/product.rs"]
mod product;
mod replays;
mod slips;
mod svg;
mod terminal;
mod training;
mod walk;
mod words;

use play::Player;
use std::fs;
use std::io::{self, Read};
use std::path::Path;
use std::process::ExitCode;

const USAGE: &str = "\
usage: host/show < SCRIPT                print the state after each call
       host/show --last < SCRIPT         print the state after the last call only
       host/show --svg FOLDER < SCRIPT   write the state after each call to FOLDER/0001.svg and so on
       host/show --slip NAME ..          the same with a slip of the training, such as settling/void_at_c_too

A script is one call a line, as words or as the numbers of host/second; '#' begins a remark.

  start 3 3 0      1 3 3 0     Start with start power, F and regime (0 fixed, 1 widening)
  query 20         2 20        Query; a hash may also be written as 0x14
  insert 20        3 20        Insert
  delete 20        4 20        Delete
  rejuvenate 20    5 20        Rejuvenate
  audit            6           Audit
  settle           7           Settle
  double           8 16        Double; in numbers, with the words of the second main
                   10 3 4 20 32   the exported Query: k, W, hash, bytes lent
                   0 ..        a filter loaded: record, places, and the three lent slices

A start in words is lent empty words of its own. A script in numbers begins with line 0, which lends them.
The calls are made on the proved library, through its C interface.
";

fn script() -> Result<String, String> {
    let mut text = String::new();
    let read = io::stdin().read_to_string(&mut text);
    read.map(|_| text).map_err(|fault| fault.to_string())
}

/// Every state in the terminal.
fn show(player: Player) -> Result<(), String> {
    play::each(&script()?, player, |played| {
        print!("{}", terminal::text(&picture::picture(&played, &[])));
    })
}

/// The last state in the terminal.
fn show_last(player: Player) -> Result<(), String> {
    let played = play::all(&script()?, player)?;
    if let Some(last) = played.last() {
        print!("{}", terminal::text(&picture::picture(last, &[])));
    }
    Ok(())
}

/// Every state as a file.
fn write_svg(folder: &str, player: Player) -> Result<(), String> {
    fs::create_dir_all(folder).map_err(|fault| format!("{folder}: {fault}"))?;
    let (mut count, mut fault) = (0, None);
    play::each(&script()?, player, |played| {
        count += 1;
        let file = Path::new(folder).join(format!("{count:04}.svg"));
        if let Err(told) = fs::write(&file, svg::document(&[picture::picture(&played, &[])])) {
            fault = Some(format!("{}: {told}", file.display()));
        }
    })?;
    println!("{count} states");
    fault.map_or(Ok(()), Err)
}

/// What host/training asks for.
fn train(words: &[&str]) -> Result<(), String> {
    match *words {
        ["write", root] => training::write(Path::new(root)),
        ["check", root] => training::check(Path::new(root)),
        ["prover", root, log] => training::check_quotations(Path::new(root), Path::new(log)),
        ["replays", root, folder] => replays::write_replays(Path::new(root), Path::new(folder)),
        ["edit", folder, file] => replays::edit(Path::new(folder), Path::new(file)),
        _ => Err(String::from(
            "training write|check ROOT, prover ROOT LOG, replays ROOT FOLDER, edit CRATE EDIT",
        )),
    }
}

/// Chooses by the words of the command line.
fn run(words: &[&str], player: Player) -> Result<(), String> {
    match words {
        [] => show(player),
        ["--last"] => show_last(player),
        ["--svg", folder] => write_svg(folder, player),
        ["--slip", name, rest @ ..] => run(rest, slips::named(name)?),
        ["training", what @ ..] => train(what),
        ["--help"] => {
            print!("{USAGE}");
            Ok(())
        }
        _ => Err(String::from(USAGE)),
    }
}

fn main() -> ExitCode {
    let arguments: Vec<String> = std::env::args().skip(1).collect();
    let words: Vec<&str> = arguments.iter().map(String::as_str).collect();
    match run(&words, play::proved) {
        Ok(()) => ExitCode::SUCCESS,
        Err(text) => {
            eprintln!("{}", text.trim_end());
            ExitCode::FAILURE
        }
    }
}
