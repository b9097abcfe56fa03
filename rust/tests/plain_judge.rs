//! `plain::judge` against the naive judge, on cases that are small enough for it.

mod aimed;
mod naive;
mod plain;

use aimed::{Case, Random};

#[test]
fn the_judge_agrees_with_the_naive_judge() {
    let mut r = Random(0x2545_F491_4F6C_DD1D);
    let mut counts = [0u32; 15];
    let mut gaps = [0u32; 7];
    for case in 0..12_000 {
        let Case { state, target, list } = aimed::case(&mut r);
        let expected = naive::judge(&state, &target, &list);
        let judged = plain::judge(&state, &target, &list);
        assert_eq!(judged, expected, "case {}: {:?}\n{:?}\n{:x?}", case, state, target, list);
        counts[judged.0 as usize] += 1;
        if judged.0 == 12 {
            let survivor = judged.1.survivor;
            gaps[(survivor.level + if survivor.leaf == 1 { 3 } else { 1 }) as usize] += 1;
        }
    }
    println!("answers {:?}\ngaps by kind {:?}", counts, gaps);
    for number in [0, 2, 8, 10, 11, 12, 13] {
        assert!(counts[number] >= 50, "too few cases of {}: {:?}", number, counts);
    }
}
