//! Every question of the desk from Rust, through the module rust/desk.rs, about five stations: two triangles that share
//! station 2.
//!
//!     rustc --edition 2024 -L target/staticlib -l static=desk examples/desk.rs -o desk && ./desk
//!
//! It prints:
//!
//!     routes from 0 to 1: Joined
//!     routes from 0 to 3: Counted(1)
//!     routes from 2 to 2: refused 7 STATION: a station's number is n or more, or the two of a pair are one
//!     all five at level 1: holds
//!     all five at level 2: weak, the loss of [2] parts them
//!     the triangle 0, 1, 2 at level 3: few, not above the level
//!     a set of three words: refused 6 SET: the set has not four words, or has a bit from n up
//!     three stations, no links, at level 1: weak, the loss of [] parts them
//!     the verdict alone on all five at level 2: Weak
//!     group 1 at level 2: [0, 1, 2]; asked where it stands: holds
//!     group 2 at level 2: [2, 3, 4]; asked where it stands: holds
//!     a list of one row: refused 5 LIST ROOM: the list has fewer than 4R words
//!     the standing of station 2: 2
//!     the standing of stations 0 and 3: 2
//!     the survey file has 53 bytes
//!     read again: Survey { version: 1, n: 5, links: 6 }, the same serials and table: true
//!     without its last byte: refused 11 LENGTH: not 9 + 4n + 4m bytes
//!     of the two triangles comes first: [0, 1, 2]
//!     of rows that are not four words: []
//!     the night list:
//!     RLM 1 stations 5 links 6
//!     1 1 101 102 103 104 105
//!     2 1 101 102 103
//!     2 2 103 104 105
//!     end 2
//!     the night list without the last byte:
//!     refused 11
//!     the night list in a short buffer: refused 14 ROOM: what is to be written has no room in its buffer

#[path = "../rust/desk.rs"]
mod desk;

use desk::{Holding, Refusal};
use std::fmt::Debug;

fn told(reply: Result<Holding, Refusal>) -> String {
    match reply {
        Ok(Holding::Holds) => "holds".to_string(),
        Ok(Holding::Few) => "few, not above the level".to_string(),
        Ok(Holding::Weak(loss)) => format!("weak, the loss of {:?} parts them", desk::stations(&loss)),
        Err(refusal) => refusal.to_string(),
    }
}

fn shown<T: Debug>(reply: Result<T, Refusal>) -> String {
    reply.map_or_else(|refusal| refusal.to_string(), |answer| format!("{answer:?}"))
}

fn main() -> Result<(), Refusal> {
    let five = desk::table(5, &[(0, 1), (0, 2), (1, 2), (2, 3), (2, 4), (3, 4)]).expect("links below 5");
    let all = desk::set_of(&[0, 1, 2, 3, 4]).expect("stations below 256");
    let triangle = desk::set_of(&[0, 1, 2]).expect("stations below 256");

    for (a, b) in [(0, 1), (0, 3), (2, 2)] {
        println!("routes from {a} to {b}: {}", shown(desk::routes(5, &five, a, b)));
    }

    println!("all five at level 1: {}", told(desk::holding(5, &five, 1, &all)));
    println!("all five at level 2: {}", told(desk::holding(5, &five, 2, &all)));
    println!("the triangle 0, 1, 2 at level 3: {}", told(desk::holding(5, &five, 3, &triangle)));
    println!("a set of three words: {}", told(desk::holding(5, &five, 2, &all[..3])));
    println!("three stations, no links, at level 1: {}", told(desk::holding(3, &[0; 12], 1, &triangle)));
    println!("the verdict alone on all five at level 2: {}", shown(desk::verdict(5, &five, 2, &all)));

    let mut list = vec![0; 4 * desk::rows(5, 2)];
    for i in 0..desk::list(5, &five, 2, &mut list)? {
        let group = desk::row(&list, i);
        let asked = told(desk::holding(5, &five, 2, group));
        println!("group {} at level 2: {:?}; asked where it stands: {asked}", i + 1, desk::stations(group));
    }
    println!("a list of one row: {}", shown(desk::list(5, &five, 2, &mut [0; 4])));

    println!("the standing of station 2: {}", shown(desk::station_standing(5, &five, 2)));
    println!("the standing of stations 0 and 3: {}", shown(desk::pair_standing(5, &five, 0, 3)));

    let serials = [101, 102, 103, 104, 105];
    let mut file = [0; 100];
    let length = desk::write(5, &serials, &five, &mut file)?;
    let file = &file[..length];
    println!("the survey file has {length} bytes");
    let (mut serials_read, mut table_read) = ([0; 5], [0; 20]);
    let survey = desk::read(file, &mut serials_read, &mut table_read)?;
    println!("read again: {survey:?}, the same serials and table: {}", serials_read == serials && table_read[..] == five);
    let cut = &file[..length - 1];
    println!("without its last byte: {}", shown(desk::read(cut, &mut serials_read, &mut table_read)));

    let (first, second) = (desk::row(&list, 0), desk::row(&list, 1));
    println!("of the two triangles comes first: {:?}", desk::stations(desk::first_row(second, first)));
    println!("of rows that are not four words: {:?}", desk::first_row(&all[..3], &triangle));

    let mut page = vec![0; desk::PAGE_BYTES];
    let length = desk::night_list(file, &mut page)?;
    print!("the night list:\n{}", String::from_utf8_lossy(&page[..length]));
    let length = desk::night_list(cut, &mut page)?;
    print!("the night list without the last byte:\n{}", String::from_utf8_lossy(&page[..length]));
    println!("the night list in a short buffer: {}", shown(desk::night_list(file, &mut [0; 9])));
    Ok(())
}
