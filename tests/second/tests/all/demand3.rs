//! Demand 3: run admitted sets from the fresh state and look at every slot and every packet.

use crate::checks::{self, set_of, L2_TEXT, P11_TEXT, RIGHT};
use second::inputs::sets;
use second::verdict;

#[test]
fn admitted_sets_keep_their_bounds_and_attain_them() {
    let fared = checks::demand3(RIGHT, 31, 40_000).unwrap();
    // Tame sets would prove little: many must be admitted, some by the tightened test alone, and many runs must take
    // a packet to its very bound.
    assert!(fared.admitted > 10_000, "{fared:?}");
    assert!(fared.only_tightened > 1_000, "{fared:?}");
    assert!(fared.attained[0] > 3_000 && fared.attained[1] > 4_000, "{fared:?}");
    assert!(fared.packets > 1_000_000, "{fared:?}");
    // So must be sets with a returning node.
    assert!(fared.loops > 4_000, "{fared:?}");
    assert!(fared.loops_attained.iter().all(|&sets| sets > 1_000), "{fared:?}");
}

#[test]
fn packets_of_loops_and_beside_loops_take_their_very_bounds() {
    for text in [P11_TEXT, L2_TEXT] {
        let (set, delays) = (set_of(text), (RIGHT.delays)(&set_of(text)));
        assert!(verdict(&set).basic && verdict(&set).tightened);
        for bounds in [delays.basic, delays.tightened] {
            let (packets, attained) = checks::run(RIGHT, &set, &bounds, 1_500).unwrap();
            assert!(packets >= 150 && attained, "{packets}: {text}");
        }
        // One slot less is too few: of flow 0 in P11, of flow 1 in L2.
        let mut short = delays.tightened;
        short[delays.count - 1] -= 1;
        assert!(checks::run(RIGHT, &set, &short, 1_500).is_err());
    }
}

#[test]
fn admitted_sets_of_every_size_keep_their_bounds() {
    let fared = checks::demand3_of(RIGHT, sets::edge, 1_500, 32, 2_000).unwrap();
    assert!(fared.admitted > 200 && fared.packets > 100_000, "{fared:?}");
    assert!(fared.loops > 100, "{fared:?}");
}
