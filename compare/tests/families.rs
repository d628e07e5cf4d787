//! What the makers of sheets promise.

use compare::families::{self, Growth};
use compare::random::Random;
use compare::reference::{Refusal, judge};
use compare::{damage, enumeration};

#[test]
fn families_are_valid() {
    let mut random = Random::new(7);
    for _ in 0..2_000 {
        let text = families::any(&mut random, 63, 64).text();
        assert!(judge(&text).is_ok(), "{}", String::from_utf8_lossy(&text));
    }
}

#[test]
fn the_largest_families_have_896_trials() {
    let mut random = Random::new(7);
    for growth in [Growth::Deep, Growth::Wide, Growth::Anywhere] {
        for _ in 0..20 {
            let (sheet, network, _) =
                judge(&families::largest(&mut random, 31, growth).text()).ok().expect("valid");
            assert_eq!((sheet.n, sheet.m, enumeration::reticulations(&sheet)), (127, 127, 31));
            let trials: u32 = network.components.iter().map(|c| 1 << c.reticulations.len()).sum();
            assert_eq!(trials, 896);
        }
    }
}

#[test]
fn typical_families_have_their_sizes() {
    let mut random = Random::new(7);
    for _ in 0..100 {
        let (sheet, _, _) = judge(&families::typical(&mut random, 11, 2, 21).text()).ok().expect("valid");
        assert_eq!((sheet.n, sheet.m, enumeration::reticulations(&sheet)), (25, 21, 2));
    }
}

#[test]
fn aimed_damage_hits() {
    let mut random = Random::new(7);
    for number in 3..=13 {
        let hits = (0..300)
            .filter(|_| {
                judge(&damage::aimed(&mut random, number)).err().map(|refusal: Refusal| refusal as u32)
                    == Some(number)
            })
            .count();
        assert!(hits >= 50, "refusal {number}: {hits} of 300");
    }
}
