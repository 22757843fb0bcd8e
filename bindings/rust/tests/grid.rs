//! The named grids G1 to G3 in both editions and across x first, eight parts across each axis first, the limits of sides, depth and weights, and each refusal: the partition stays untouched.
use skarvolm::{Grid, Refused, NOT_CUT};

#[test]
fn g1() {
    let mut partition = [9; 16];
    assert_eq!(Grid::new_2d(4, 4).rcb(&mut partition, &[1; 16], 2), Ok(vec![2, 2, 2]));
    assert_eq!(partition, [0, 0, 1, 1, 0, 0, 1, 1, 2, 2, 3, 3, 2, 2, 3, 3]);
}

#[test]
fn g2() {
    let mut partition = [9; 4];
    let splits = Grid::new_2d(4, 1).rcb(&mut partition, &[10, 20, 30, 40], 3);
    assert_eq!(splits, Ok(vec![0, 0, 2, NOT_CUT, NOT_CUT, 0, 0]));
    assert_eq!(partition, [5, 5, 7, 7]);
}

#[test]
fn g3() {
    let mut partition = [9; 4];
    assert_eq!(Grid::new_2d(2, 2).rcb(&mut partition, &[1; 4], 2), Ok(vec![1, 0, 0]));
    assert_eq!(partition, [1, 1, 3, 3]);
}

#[test]
fn g3_in_edition_2() {
    let mut partition = [9; 4];
    assert_eq!(
        Grid::new_2d(2, 2).halve(2, 1, &mut partition, &[1; 4], 2),
        Ok(vec![1, 1, 1])
    );
    assert_eq!(partition, [0, 1, 2, 3]);
    let mut partition = [9; 8];
    assert_eq!(
        Grid::new_3d(2, 2, 2).halve(2, 1, &mut partition, &[1; 8], 3),
        Ok(vec![1; 7])
    );
    assert_eq!(partition, [0, 1, 4, 5, 2, 3, 6, 7]);
}

#[test]
fn g1_and_g2_are_the_same_in_edition_2() {
    let mut partition = [9; 16];
    assert_eq!(
        Grid::new_2d(4, 4).halve(2, 1, &mut partition, &[1; 16], 2),
        Ok(vec![2, 2, 2])
    );
    assert_eq!(partition, [0, 0, 1, 1, 0, 0, 1, 1, 2, 2, 3, 3, 2, 2, 3, 3]);
    let mut partition = [9; 4];
    let splits = Grid::new_2d(4, 1).halve(2, 1, &mut partition, &[10, 20, 30, 40], 3);
    assert_eq!(splits, Ok(vec![0, 0, 2, NOT_CUT, NOT_CUT, 0, 0]));
    assert_eq!(partition, [5, 5, 7, 7]);
}

#[test]
fn eight_parts_of_a_cube() {
    let mut partition = [9; 64];
    let splits = Grid::new_3d(4, 4, 4).rcb(&mut partition, &[1; 64], 3);
    assert_eq!(splits, Ok(vec![2; 7]));
    for (i, part) in partition.into_iter().enumerate() {
        let (x, y, z) = (i as u32 % 4, i as u32 / 4 % 4, i as u32 / 16);
        assert_eq!(part, 4 * (y / 2) + 2 * (z / 2) + x / 2);
    }
}

#[test]
fn depth_0_is_one_part() {
    let mut partition = [9; 6];
    assert_eq!(Grid::new_2d(3, 2).rcb(&mut partition, &[1; 6], 0), Ok(vec![]));
    assert_eq!(partition, [0; 6]);
}

#[test]
fn the_limits_pass() {
    let mut partition = vec![9; 65_536];
    let weights = vec![16_777_215; 65_536];
    let splits = Grid::new_2d(1024, 64).rcb(&mut partition, &weights, 12).unwrap();
    assert_eq!(splits.len(), 4095);
    assert!(partition.iter().all(|&part| part < 4096));
    let splits = Grid::new_3d(64, 32, 32).rcb(&mut partition, &weights, 12).unwrap();
    assert_eq!(splits.len(), 4095);
}

/// Halves a 2D and a 3D grid that are refused alike, and holds that neither partition is written.
fn refused(sides: [u32; 2], weights: &[u64], cells: usize, depth: u32) -> Refused {
    let mut partition = vec![9; cells];
    let in_2d = Grid::new_2d(sides[0], sides[1])
        .rcb(&mut partition, weights, depth)
        .unwrap_err();
    let in_3d = Grid::new_3d(sides[0], 1, sides[1])
        .rcb(&mut partition, weights, depth)
        .unwrap_err();
    assert_eq!(in_2d, in_3d);
    assert!(partition.iter().all(|&part| part == 9));
    in_2d
}

#[test]
fn refusals() {
    let heavy = [1, 1, 1, 16_777_216];
    assert_eq!(refused([0, 2], &[], 0, 13), Refused::Sides);
    assert_eq!(refused([1025, 1], &[1; 1025], 1025, 1), Refused::Sides);
    assert_eq!(refused([1024, 65], &[], 0, 1), Refused::Sides);
    assert_eq!(refused([2, 2], &heavy[1..], 4, 13), Refused::Depth);
    assert_eq!(refused([2, 2], &heavy[1..], 4, u32::MAX), Refused::Depth);
    assert_eq!(refused([2, 2], &heavy[1..], 4, 2), Refused::Lengths);
    assert_eq!(refused([2, 2], &heavy, 3, 2), Refused::Lengths);
    assert_eq!(refused([2, 2], &heavy, 4, 2), Refused::Weight);
}

#[test]
fn another_edition_is_refused_before_anything_else() {
    let mut partition = [9; 4];
    for edition in [0, 3, u32::MAX] {
        assert_eq!(
            Grid::new_2d(0, 2).halve(edition, 1, &mut partition, &[], 13),
            Err(Refused::Edition)
        );
        assert_eq!(
            Grid::new_3d(2, 2, 1).halve(edition, 1, &mut partition, &[1; 4], 2),
            Err(Refused::Edition)
        );
    }
    assert_eq!(partition, [9; 4]);
}

#[test]
fn g2_across_x_first() {
    let mut partition = [9; 4];
    assert_eq!(
        Grid::new_2d(4, 1).halve(1, 0, &mut partition, &[10, 20, 30, 40], 3),
        Ok(vec![2, 0, 0, 0, 1, 2, 3])
    );
    assert_eq!(partition, [2, 3, 6, 7]);
}

#[test]
fn eight_parts_across_each_axis_first() {
    for (first, ids) in [
        (0, [0, 4, 2, 6, 1, 5, 3, 7]),
        (1, [0, 1, 4, 5, 2, 3, 6, 7]),
        (2, [0, 2, 1, 3, 4, 6, 5, 7]),
    ] {
        let mut partition = [9; 8];
        assert_eq!(
            Grid::new_3d(2, 2, 2).halve(2, first, &mut partition, &[1; 8], 3),
            Ok(vec![1; 7])
        );
        assert_eq!(partition, ids);
    }
}

#[test]
fn an_axis_that_the_grid_has_not_is_refused_after_the_edition() {
    let mut partition = [9; 4];
    for first in [2, 3, u32::MAX] {
        assert_eq!(
            Grid::new_2d(0, 2).halve(1, first, &mut partition, &[], 13),
            Err(Refused::First)
        );
        assert_eq!(
            Grid::new_2d(2, 2).halve(3, first, &mut partition, &[1; 4], 2),
            Err(Refused::Edition)
        );
    }
    assert_eq!(
        Grid::new_3d(2, 2, 1).halve(2, 3, &mut partition, &[1; 4], 2),
        Err(Refused::First)
    );
    assert_eq!(partition, [9; 4]);
}
