//! The independent second program: written from the rules alone, it answers by brute force and by ways of
//! its own, and compares every reply and every lent buffer with the library's.
//!
//!     second [--long] [routes] [holding] [list] [standings] [files] [order] [night] [-- bridge command]
//!     second page < FILE
//!     second fuzz [WORDS..] -- PROGRAM
//!
//! With no question named, all those that were compiled in are run (`--cfg with_routes` and so on).
//! It exits with 0 only if there is no difference. `page` prints the page of a survey and `fuzz`
//! compares a night list program with it (fuzz.rs); these two need no library.

#![cfg_attr(
    not(all(with_routes, with_holding, with_list, with_standings, with_files, with_order, with_night)),
    allow(dead_code)
)]

#[cfg(with_files)]
mod ask_files;
#[cfg(with_holding)]
mod ask_holding;
#[cfg(with_list)]
mod ask_list;
#[cfg(with_night)]
mod ask_night;
#[cfg(with_order)]
mod ask_order;
#[cfg(with_routes)]
mod ask_routes;
#[cfg(with_standings)]
mod ask_standings;
mod brute;
mod card;
mod damage;
#[cfg(not(piped))]
#[path = "linked.rs"]
mod desk;
#[cfg(piped)]
#[path = "piped.rs"]
mod desk;
mod draft;
mod flow;
mod fuzz;
mod hand;
mod mesh;
mod page;
mod pieces;
mod rand;
mod survey;
mod tally;

type Run = fn(&mut desk::Desk, usize) -> bool;

fn questions() -> Vec<(&'static str, Run)> {
    vec![
        #[cfg(with_routes)]
        ("routes", ask_routes::run as Run),
        #[cfg(with_holding)]
        ("holding", ask_holding::run as Run),
        #[cfg(with_list)]
        ("list", ask_list::run as Run),
        #[cfg(with_standings)]
        ("standings", ask_standings::run as Run),
        #[cfg(with_files)]
        ("files", ask_files::run as Run),
        #[cfg(with_order)]
        ("order", ask_order::run as Run),
        #[cfg(with_night)]
        ("night", ask_night::run as Run),
    ]
}

/// `--long` asks this many times the questions.
const LONG: usize = 20;

fn main() {
    let mut words: Vec<String> = std::env::args().skip(1).collect();
    if words == ["page"] {
        let printed = page::print();
        std::process::exit(printed.is_err() as i32);
    }
    // what starts another program
    let command = match words.iter().position(|word| word == "--") {
        Some(at) => words.split_off(at)[1..].to_vec(),
        None => Vec::new(),
    };
    if words.first().is_some_and(|word| word == "fuzz") {
        std::process::exit(fuzz::main(&words[1..], &command));
    }
    let times = if words.iter().any(|word| word == "--long") { LONG } else { 1 };
    words.retain(|word| word != "--long");
    let known = questions();
    for word in &words {
        if !known.iter().any(|(name, _)| name == word) {
            eprintln!("no such question in this build: {}", word);
            std::process::exit(2);
        }
    }
    if known.is_empty() {
        eprintln!("no question in this build: there is nothing to compare");
        std::process::exit(2);
    }
    let mut good = hand::run();
    let mut desk = desk::Desk::open(&command);
    for (name, run) in known {
        if words.is_empty() || words.iter().any(|word| word == name) {
            let start = std::time::Instant::now();
            good &= run(&mut desk, times);
            println!("  {} s", start.elapsed().as_millis() as f64 / 1000.0);
        }
    }
    println!("{}", if good { "all the same" } else { "NOT THE SAME" });
    std::process::exit(if good { 0 } else { 1 });
}
