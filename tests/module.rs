//! The module rust/desk.rs at the ends of what it can be given: no function panics, and each refusal tells its name and
//! reason. tests/examples builds it with the checks of a debug build and runs it; it prints one line.

#[path = "../rust/desk.rs"]
mod desk;

use desk::{Holding, Refusal, Routes, Survey, Verdict};

const MOST: usize = usize::MAX;

/// What is made and taken apart without the library.
fn sets_and_tables() {
    for n in 0..40 {
        for k in 0..20 {
            assert_eq!(desk::rows(n, k), if n <= k { 0 } else { (n - k + 1) / 2 });
        }
    }
    assert_eq!([desk::rows(MOST, 0), desk::rows(0, MOST), desk::rows(MOST, MOST)], [MOST / 2 + 1, 0, 0]);
    assert_eq!(4 * desk::rows(desk::STATIONS, desk::LEVEL_LEAST), desk::LIST_WORDS);

    assert_eq!(desk::row(&[1, 2, 3, 4, 5, 6, 7], 0), [1, 2, 3, 4]);
    for i in [1, 2, MOST / 4, MOST] {
        assert!(desk::row(&[1, 2, 3, 4, 5, 6, 7], i).is_empty() && desk::row(&[], i).is_empty());
    }

    assert_eq!(desk::set_of(&[0, 64, 255, 255]), Some([1, 1, 0, 1 << 63]));
    assert_eq!([desk::set_of(&[256]), desk::set_of(&[1, MOST])], [None, None]);
    assert_eq!(desk::stations(&[1, 1, 0, 1 << 63]), [0, 64, 255]);
    assert!(desk::stations(&[]).is_empty());

    assert_eq!(desk::table(0, &[]), Some(vec![]));
    assert_eq!(desk::table(desk::STATIONS, &[(0, 255), (255, 0)]).map(|words| words.len()), Some(desk::TABLE_WORDS));
    for (n, link) in [(0, (0, 1)), (2, (0, 2)), (2, (1, 1)), (257, (0, 1)), (MOST, (0, 1)), (256, (0, MOST))] {
        assert_eq!(desk::table(n, &[link]), None);
    }
}

/// Every question with nothing lent, and with numbers that are as large as there are.
fn ends() {
    use Refusal::*;
    let none = [0; 4];
    let mut page = vec![0; desk::PAGE_BYTES];
    assert_eq!(desk::routes(0, &[], 0, 1), Err(Station));
    assert_eq!(desk::routes(MOST, &[], MOST, MOST), Err(Stations));
    assert_eq!(desk::routes(2, &[0; 8], 0, MOST), Err(Station));
    assert_eq!(desk::routes(2, &[0; 8], 0, 1), Ok(Routes::Counted(0)));
    assert_eq!(desk::holding(0, &[], 1, &none), Ok(Holding::Few));
    assert_eq!(desk::holding(0, &[], MOST, &[]), Err(Level));
    assert_eq!(desk::holding(0, &[], 1, &[]), Err(Set));
    assert_eq!(desk::verdict(0, &[], 1, &none), Ok(Verdict::Few));
    assert_eq!(desk::verdict(0, &[], 1, &[u64::MAX; 4]), Err(Set));
    assert_eq!(desk::list(0, &[], 1, &mut []), Ok(0));
    assert_eq!(desk::list(1, &[u64::MAX; 4], 1, &mut []), Err(Table));
    assert_eq!(desk::list(2, &[0; 8], 1, &mut []), Err(ListRoom));
    assert_eq!(desk::list(MOST, &[], MOST, &mut []), Err(Stations));
    assert_eq!(desk::station_standing(0, &[], MOST), Err(Station));
    assert_eq!(desk::station_standing(1, &[], 0), Err(TableLength));
    assert_eq!(desk::pair_standing(2, &[0; 8], 1, 1), Err(Station));
    assert_eq!(desk::pair_standing(2, &[0; 8], 0, 1), Ok(0));
    assert_eq!(desk::read(&[], &mut [], &mut []), Err(Mark));
    assert_eq!(desk::read(b"RLM\x01\0\0\0\0\0", &mut [], &mut []), Ok(Survey { version: 1, n: 0, links: 0 }));
    assert_eq!(desk::read(&[0xff; 9], &mut [], &mut []), Err(Mark));
    assert_eq!(desk::write(0, &[], &[], &mut []), Err(Room));
    assert_eq!(desk::write(1, &[], &none, &mut []), Err(Serial));
    assert_eq!(desk::night_list(&[], &mut []), Err(Room));
    assert_eq!(desk::night_list(&[], &mut page), Ok(10));
    assert_eq!(page[..11], *b"refused 8\n\0");

    let rows = [[3; 6], [2; 6]];
    for (x, y) in (0..=6).flat_map(|x| (0..=6).map(move |y| (x, y))) {
        let first = desk::first_row(&rows[0][..x], &rows[1][..y]);
        assert_eq!(first, if (x, y) == (4, 4) { &rows[0][..4] } else { &[] });
    }
}

/// The words of a refusal.
fn words() {
    let refusal = desk::list(5, &[0; 20], 2, &mut [0; 7]).unwrap_err();
    assert_eq!((refusal.number(), refusal.name(), refusal.reason()), (5, "LIST ROOM", "the list has fewer than 4R words"));
    let error: Box<dyn std::error::Error> = refusal.into();
    assert_eq!(error.to_string(), "refused 5 LIST ROOM: the list has fewer than 4R words");
}

fn main() {
    sets_and_tables();
    ends();
    words();
    println!("the module at its ends: as it should be");
}
