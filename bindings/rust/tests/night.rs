//! Bench nights: the two that halve anew, refused events, and each refusal of the call.
use skarvolm::{Grid, Refused};

const TOP: u64 = 16777215;

#[test]
fn the_upper_bound_breaks() {
    let (mut partition, mut weights) = ([7; 9], [0; 9]);
    let night = Grid::new_2d(3, 3).replay(1, &mut partition, &mut weights, &[0, 4, 8], &[1; 3], 2);
    assert_eq!(night.unwrap().splits, [1, 0, 2]);
    assert_eq!(partition, [1, 1, 1, 2, 2, 3, 2, 2, 3]);
    assert_eq!(weights, [1, 0, 0, 0, 1, 0, 0, 0, 1]);
}

#[test]
fn the_lower_bound_alone_breaks() {
    let (mut partition, mut weights) = ([7; 25], [0; 25]);
    let diagonal = [0, 6, 12, 18, 24];
    let amounts = [20, 20, 20, 20, 1];
    let grid = Grid::new_2d(5, 5);
    let four = grid.replay(1, &mut partition, &mut weights, &diagonal[..4], &amounts[..4], 1);
    let cut_of_zeros = grid.halve(2, 1, &mut [0; 25], &[0; 25], 1);
    assert_eq!(Ok(four.unwrap().splits), cut_of_zeros);
    let mut weights = [0; 25];
    let five = grid.replay(1, &mut partition, &mut weights, &diagonal, &amounts, 1);
    let cut_anew = grid.halve(2, 1, &mut [0; 25], &weights, 1);
    assert_eq!(Ok(five.unwrap().splits), cut_anew);
    assert_ne!(cut_anew, cut_of_zeros);
}

#[test]
fn a_refused_event_changes_nothing() {
    let (mut partition, mut weights) = ([7; 8], [TOP, 0, 0, 0, 0, 0, 0, 5]);
    let cells = [8, u64::MAX, 0, 0, 7];
    let amounts = [0, u64::MAX, 1, u64::MAX, TOP - 5];
    let night = Grid::new_3d(2, 2, 2).replay(2, &mut partition, &mut weights, &cells, &amounts, 3);
    let (cell, weight) = (Err(Refused::Cell), Err(Refused::Weight));
    assert_eq!(night.unwrap().answers, [cell, cell, weight, weight, Ok(())]);
    assert_eq!(weights, [TOP, 0, 0, 0, 0, 0, 0, TOP]);
}

#[test]
fn refused_nights() {
    let kept = [TOP + 1, 1, 1, 1];
    let mut weights = kept;
    let mut partition = [7; 4];
    let mut refused = |width, first, amounts: &[u64], depth| {
        let night = Grid::new_2d(width, 2).replay(first, &mut partition, &mut weights, &[0], amounts, depth);
        assert_eq!((partition, weights), ([7; 4], kept));
        night.unwrap_err()
    };
    assert_eq!(refused(0, 2, &[], 13), Refused::First);
    assert_eq!(refused(0, 1, &[], 13), Refused::Sides);
    assert_eq!(refused(2, 1, &[], 13), Refused::Depth);
    assert_eq!(refused(2, 1, &[], 1), Refused::Lengths);
    assert_eq!(refused(2, 1, &[1], 1), Refused::Weight);
}
