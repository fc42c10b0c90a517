//! The bench. Each part prints a table in Markdown.
//!
//!     bench meshes                      the meshes of the routes part, for the other programs
//!     bench routes  TIMES [LEMON FILE]  best of TIMES repetitions
//!     bench holding TIMES
//!     bench list    TIMES
//!     bench list64  TIMES              the library's times for the peers in Python
//!     bench files   TIMES
//!     bench night   TIMES [PROGRAM]    PROGRAM, the night list program, is run as a process

mod desk;
mod engine;
mod families;
mod files;
mod flow;
mod measure;
mod page;
mod part_files;
mod part_holding;
mod part_list;
mod part_night;
mod part_routes;
mod question;
mod set;

fn main() {
    let words: Vec<String> = std::env::args().collect();
    let word = |i: usize| words.get(i).map(String::as_str).unwrap_or("");
    let times: usize = word(2).parse().unwrap_or(3).max(1);
    match word(1) {
        "meshes" => part_routes::write_meshes(),
        "routes" => part_routes::run(times, word(3)),
        "holding" => part_holding::run(times),
        "list" => part_list::run(times),
        "files" => part_files::run(times),
        "night" => part_night::run(times, word(3)),
        "list64" => part_list::write_times(times),
        _ => {
            eprintln!("bench meshes | routes TIMES [LEMON FILE] | holding TIMES | list TIMES | list64 TIMES | files TIMES | night TIMES [PROGRAM]");
            std::process::exit(2);
        }
    }
}
