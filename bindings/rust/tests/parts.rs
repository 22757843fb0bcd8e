//! Parts along the curve against the rule by brute force, the limits, and each refusal: the partition stays untouched.
use skarvolm::{HilbertCurve, Refused};

fn of_parts(part_count: u32) -> HilbertCurve {
    HilbertCurve {
        part_count,
        ..Default::default()
    }
}

/// The part of each point as request 1/14 says it.
fn by_the_rule(n: u64, indices: &[u64], weights: &[u64]) -> Vec<u32> {
    let to = |x| {
        (0..indices.len())
            .filter(|&p| indices[p] <= x)
            .map(|p| weights[p])
            .sum::<u64>()
    };
    let all: u64 = weights.iter().sum();
    let split = |i| *indices.iter().filter(|&&x| n * to(x) >= i * all).min().unwrap();
    let splits: Vec<u64> = (1..n).map(split).collect();
    let part = |x| splits.iter().filter(|&&s| s < x).count() as u32;
    indices.iter().map(|&x| part(x)).collect()
}

#[test]
fn parts_and_order_are_the_rules() {
    let mut state = 1u64;
    let mut draw = |below: u64| {
        state = state
            .wrapping_mul(6364136223846793005)
            .wrapping_add(1442695040888963407);
        (state >> 33) % below
    };
    for _ in 0..2000 {
        let points = 1 + draw(40) as usize;
        let (indices_below, weights_below) = (1 + draw(60), 1 + draw(5));
        let indices: Vec<u64> = (0..points).map(|_| draw(indices_below)).collect();
        let weights: Vec<u64> = (0..points).map(|_| draw(weights_below)).collect();
        let n = 1 + draw(12) as u32;
        let mut partition = vec![9; points];
        let order = of_parts(n).partition(&mut partition, &indices, &weights).unwrap();
        assert_eq!(partition, by_the_rule(n as u64, &indices, &weights));
        let mut sorted: Vec<u32> = (0..points as u32).collect();
        sorted.sort_by_key(|&p| indices[p as usize]);
        assert_eq!(order, sorted);
    }
}

#[test]
fn points_along_the_curve_in_2d_and_3d() {
    let (xs, ys) = ([0.0, 1.0, 0.0, 1.0], [0.0, 1.0, 10.0, 9.0]);
    let (mut in_2d, mut in_3d) = ([9; 4], [9; 4]);
    of_parts(2).partition_2d(&mut in_2d, &xs, &ys, &[1; 4]).unwrap();
    of_parts(2)
        .partition_3d(&mut in_3d, &xs, &ys, &[5.0; 4], &[1; 4])
        .unwrap();
    assert_eq!(in_2d, [0, 1, 0, 1]);
    assert_eq!(in_3d, [0, 1, 0, 1]);
}

#[test]
fn the_limits_pass() {
    let indices: Vec<u64> = (0..65_536).rev().collect();
    let mut partition = vec![9; 65_536];
    let order = of_parts(1024)
        .partition(&mut partition, &indices, &vec![16_777_215; 65_536])
        .unwrap();
    assert!((0..65_536).all(|p| partition[p] == 1023 - p as u32 / 64));
    assert!((0..65_536).all(|i| order[i] == 65_535 - i as u32));
}

fn refused(part_count: u32, indices: &[u64], weights: &[u64], places: usize) -> Refused {
    let mut partition = vec![9; places];
    let refused = of_parts(part_count)
        .partition(&mut partition, indices, weights)
        .unwrap_err();
    assert!(partition.iter().all(|&part| part == 9));
    refused
}

#[test]
fn refusals() {
    let heavy = [16_777_216];
    assert_eq!(refused(0, &[], &heavy, 2), Refused::Counts);
    assert_eq!(refused(1025, &[], &heavy, 2), Refused::Counts);
    assert_eq!(refused(1, &vec![0; 65_537], &heavy, 2), Refused::Counts);
    assert_eq!(refused(1, &[], &heavy, 2), Refused::NoPoints);
    assert_eq!(refused(1, &[0], &heavy, 2), Refused::Lengths);
    assert_eq!(refused(1, &[0], &[], 1), Refused::Lengths);
    assert_eq!(refused(1, &[0], &heavy, 1), Refused::Weight);
    let mut partition = [9; 2];
    assert_eq!(
        of_parts(0).partition_2d(&mut partition, &[0.0, 1e-7], &[0.0, 1.0], &[1; 2]),
        Err(Refused::Thin)
    );
    assert_eq!(partition, [9; 2]);
}
