//! A program that checks that its own constants and tables aren't replaced by those of the
//! library's assembly.
//!
//! With fat LTO rustc puts the assembly into the program's module, where `.LCPI0_0` is the first
//! constant of the first function. If the assembly had that label too, the program would compute
//! with the library's constant. So this program has many functions, each with its own constants and
//! tables, and compares what they return with integers that are computed in another way.
use std::hint::black_box;
use unix_path_proved::{Component, Path};

/// Computes with floats that the compiler keeps as vectors.
#[inline(never)]
fn scaled<const N: u32>(x: [f64; 2]) -> [f64; 2] {
    let n = f64::from(N);
    [
        x[0] * (n + 1.25) + (n + 0.75),
        x[1] * (n + 2.5) + (n + 8.25),
    ]
}

/// Selects an arm through a jump table.
#[inline(never)]
fn chosen<const N: u32>(arm: u32, x: u32) -> u32 {
    match arm {
        0 => x + N,
        1 => x * (N + 3),
        2 => x.swap_bytes() ^ N,
        3 => x / (N + 2),
        4 => x % (N + 2),
        5 => x.count_ones() + N,
        6 => x.leading_zeros() * N,
        _ => !x,
    }
}

/// Returns a number from a table of numbers.
#[inline(never)]
fn listed<const N: u32>(arm: u32) -> u32 {
    match arm {
        0 => N * N,
        1 => N + 70_001,
        2 => N * 3 + 5,
        3 => N + 11,
        4 => N * 977,
        5 => N + 1,
        6 => N * 31 + 900_000,
        _ => N,
    }
}

/// Checks what the functions for the number `N` return.
fn check<const N: u32>() {
    let (n, x) = black_box((N, 0x01_e240));
    for factor in 1..4 {
        let found = black_box(scaled::<N>)(black_box([f64::from(factor); 2]));
        let wanted = [
            factor * (4 * n + 5) + 4 * n + 3,
            factor * (4 * n + 10) + 4 * n + 33,
        ];
        assert_eq!(found.map(|it| (it * 4.0) as u32), wanted);
    }
    let quotient = x / (n + 2);
    let chosen_by_hand = [
        x + n,
        x * (n + 3),
        0x40e2_0100 ^ n,
        quotient,
        x - quotient * (n + 2),
        6 + n,
        15 * n,
        u32::MAX - x,
    ];
    let listed_by_hand = [
        n * n,
        n + 70_001,
        n * 3 + 5,
        n + 11,
        n * 977,
        n + 1,
        n * 31 + 900_000,
        n,
    ];
    for arm in 0..8 {
        let found = black_box(chosen::<N>)(black_box(arm), x);
        assert_eq!(found, black_box(chosen_by_hand)[arm as usize]);
        let found = black_box(listed::<N>)(black_box(arm));
        assert_eq!(found, black_box(listed_by_hand)[arm as usize]);
    }
}

/// Calls `check` for each of these numbers.
macro_rules! check_each {
    ($($number:literal)*) => { $(check::<$number>();)* };
}

/// Checks results of the library, which has constants and tables too.
fn check_library() {
    let path = black_box(Path::new("/srv/./images//a-long-name/of-a-directory/photo.jpeg/."));
    let other = black_box(Path::new("/srv/images/a-long-name/of-a-directory//photo.jpeg"));
    assert!(path == other && path.check_request().is_err());
    let last = path.components().next_back();
    assert_eq!(last, Some(Component::Normal("photo.jpeg".as_ref())));
    assert_eq!(Path::new("/srv").join("a").as_unix_str(), "/srv/a");
}

fn main() {
    check_each! {
        0 1 2 3 4 5 6 7 8 9 10 11 12 13 14 15 16 17 18 19 20 21 22 23 24 25 26 27 28 29 30 31 32 33
        34 35 36 37 38 39 40 41 42 43 44 45 46 47 48 49 50 51 52 53 54 55 56 57 58 59 60 61 62 63 64
        65 66 67 68 69 70 71 72 73 74 75 76 77 78 79
    }
    check_library();
}
