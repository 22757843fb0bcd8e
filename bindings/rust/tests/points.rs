//! Values on an axis, indices of points, and each refusal of both.
use skarvolm::{HilbertCurve, Refused};

fn of_order(order: u32) -> HilbertCurve {
    HilbertCurve {
        order,
        ..Default::default()
    }
}

#[test]
fn cells_from_0_to_4() {
    for (value, cell) in [(0.0, 0), (1.0, 0), (2.0, 1), (2.5, 2), (3.0, 2), (4.0, 3)] {
        assert_eq!(of_order(2).cell(0.0, 4.0, value), Ok(cell), "{value}");
    }
}

#[test]
fn a_flat_axis_has_cell_0() {
    assert_eq!(of_order(30).cell(7.0, 7.0, 7.0), Ok(0));
    assert_eq!(of_order(30).cell(-0.0, 0.0, 0.0), Ok(0));
}

#[test]
fn refusals_of_cells() {
    let curve = of_order(2);
    assert_eq!(of_order(33).cell(f64::NAN, 0.0, 0.0), Err(Refused::Order));
    assert_eq!(curve.cell(f64::NAN, 4.0, 0.0), Err(Refused::Value));
    assert_eq!(curve.cell(0.0, f64::INFINITY, 0.0), Err(Refused::Value));
    assert_eq!(curve.cell(0.0, 1_048_577.0, 0.0), Err(Refused::Value));
    assert_eq!(curve.cell(0.0, 4.0, f64::NAN), Err(Refused::Value));
    assert_eq!(curve.cell(4.0, 0.0, 2.0), Err(Refused::Outside));
    assert_eq!(curve.cell(0.0, 4.0, 4.5), Err(Refused::Outside));
    assert_eq!(curve.cell(0.0, 1e-7, 0.0), Err(Refused::Thin));
    assert_eq!(curve.cell(-1_048_576.0, 1_048_576.0, 1_048_576.0), Ok(3));
}

#[test]
fn indices_are_those_of_the_cells() {
    let curve = HilbertCurve::default();
    let (xs, ys, zs) = ([-3.0, 5.0, 0.25, 1.5], [2.0, 2.5, -9.0, 0.0], [7.0, 1.0, 7.5, 2.0]);
    let of_2d = curve.index_2d(&xs, &ys).unwrap();
    let of_3d = curve.index_3d(&xs, &ys, &zs).unwrap();
    for i in 0..xs.len() {
        let x = curve.cell(-3.0, 5.0, xs[i]).unwrap();
        let y = curve.cell(-9.0, 2.5, ys[i]).unwrap();
        let z = curve.cell(1.0, 7.5, zs[i]).unwrap();
        assert_eq!(Ok(of_2d[i]), curve.encode_2d(x, y));
        assert_eq!(Ok(of_3d[i]), curve.encode_3d(x, y, z));
    }
}

#[test]
fn equal_points_have_index_0() {
    assert_eq!(of_order(30).index_2d(&[1.0; 5], &[2.0; 5]), Ok(vec![0; 5]));
    assert_eq!(of_order(21).index_3d(&[1.0; 5], &[2.0; 5], &[3.0; 5]), Ok(vec![0; 5]));
}

#[test]
fn refusals_of_indices_in_2d() {
    let curve = HilbertCurve::default();
    assert_eq!(of_order(33).index_2d(&[], &[]), Err(Refused::Order));
    assert_eq!(curve.index_2d(&[], &[1.0]), Err(Refused::NoPoints));
    assert_eq!(curve.index_2d(&[f64::NAN], &[]), Err(Refused::Lengths));
    assert_eq!(curve.index_2d(&[0.0, 1e-7], &[0.0, f64::NAN]), Err(Refused::Value));
    assert_eq!(curve.index_2d(&[0.0, 1e-7], &[0.0, 1.0]), Err(Refused::Thin));
}

#[test]
fn refusals_of_indices_in_3d() {
    let curve = HilbertCurve::default();
    assert_eq!(of_order(22).index_3d(&[], &[], &[]), Err(Refused::Order));
    assert_eq!(curve.index_3d(&[], &[1.0], &[]), Err(Refused::NoPoints));
    assert_eq!(curve.index_3d(&[0.0], &[0.0], &[]), Err(Refused::Lengths));
    assert_eq!(
        curve.index_3d(&[0.0, 1e-7], &[0.0, 1.0], &[0.0, -1e300]),
        Err(Refused::Value)
    );
    assert_eq!(
        curve.index_3d(&[0.0, 1.0], &[0.0, 1.0], &[0.0, 1e-7]),
        Err(Refused::Thin)
    );
}

#[test]
fn indices_on_given_axes_are_those_of_the_cells() {
    let curve = HilbertCurve::default();
    let (x, y, z) = ((-4.0, 6.0), (-10.0, 2.5), (0.0, 8.0));
    let (xs, ys, zs) = ([-3.0, 6.0, 0.25, -4.0], [2.0, 2.5, -9.0, 0.0], [7.0, 0.0, 7.5, 8.0]);
    let of_2d = curve.index_2d_in(x, y, &xs, &ys).unwrap();
    let of_3d = curve.index_3d_in(x, y, z, &xs, &ys, &zs).unwrap();
    for i in 0..xs.len() {
        let (x, y, z) = (
            curve.cell(x.0, x.1, xs[i]).unwrap(),
            curve.cell(y.0, y.1, ys[i]).unwrap(),
            curve.cell(z.0, z.1, zs[i]).unwrap(),
        );
        assert_eq!(Ok(of_2d[i]), curve.encode_2d(x, y));
        assert_eq!(Ok(of_3d[i]), curve.encode_3d(x, y, z));
    }
}

#[test]
fn on_given_axes_an_index_stays() {
    let curve = HilbertCurve::default();
    let (x, y) = ((0.0, 100.0), (0.0, 100.0));
    let few = curve.index_2d_in(x, y, &[10.0, 20.0], &[30.0, 40.0]).unwrap();
    let more = curve
        .index_2d_in(x, y, &[10.0, 20.0, 99.0], &[30.0, 40.0, 1.0])
        .unwrap();
    assert_eq!(few, more[..2]);
    assert_ne!(
        curve.index_2d(&[10.0, 20.0], &[30.0, 40.0]).unwrap(),
        curve.index_2d(&[10.0, 20.0, 99.0], &[30.0, 40.0, 1.0]).unwrap()[..2]
    );
}

#[test]
fn on_the_points_own_ends_the_indices_are_the_same() {
    let curve = of_order(21);
    let (xs, ys, zs) = ([-3.0, 5.0, 0.25, 1.5], [2.0, 2.5, -9.0, 0.0], [7.0, 1.0, 7.5, 2.0]);
    let (x, y, z) = ((-3.0, 5.0), (-9.0, 2.5), (1.0, 7.5));
    assert_eq!(curve.index_2d_in(x, y, &xs, &ys), curve.index_2d(&xs, &ys));
    assert_eq!(curve.index_3d_in(x, y, z, &xs, &ys, &zs), curve.index_3d(&xs, &ys, &zs));
}

#[test]
fn refusals_of_indices_on_given_axes_in_2d() {
    let curve = HilbertCurve::default();
    let (side, nan, reversed, thin) = ((0.0, 1.0), (0.0, f64::NAN), (1.0, 0.0), (0.0, 1e-7));
    assert_eq!(of_order(33).index_2d_in(nan, side, &[], &[]), Err(Refused::Order));
    assert_eq!(curve.index_2d_in(nan, side, &[], &[1.0]), Err(Refused::NoPoints));
    assert_eq!(curve.index_2d_in(nan, side, &[0.0], &[]), Err(Refused::Lengths));
    assert_eq!(curve.index_2d_in(reversed, nan, &[0.0], &[0.0]), Err(Refused::Value));
    assert_eq!(curve.index_2d_in(thin, reversed, &[0.0], &[0.0]), Err(Refused::Outside));
    assert_eq!(curve.index_2d_in(side, thin, &[f64::NAN], &[0.0]), Err(Refused::Thin));
    assert_eq!(curve.index_2d_in(side, side, &[2.0], &[f64::NAN]), Err(Refused::Value));
    assert_eq!(curve.index_2d_in(side, side, &[0.0], &[2.0]), Err(Refused::Outside));
}

#[test]
fn refusals_of_indices_on_given_axes_in_3d() {
    let curve = HilbertCurve::default();
    let (side, nan, reversed, thin) = ((0.0, 1.0), (0.0, f64::NAN), (1.0, 0.0), (0.0, 1e-7));
    let of = |z, zs: &[f64]| curve.index_3d_in(side, side, z, &[0.5], &[0.5], zs);
    assert_eq!(
        of_order(22).index_3d_in(side, side, side, &[], &[], &[]),
        Err(Refused::Order)
    );
    assert_eq!(
        curve.index_3d_in(side, side, side, &[], &[], &[]),
        Err(Refused::NoPoints)
    );
    assert_eq!(of(nan, &[]), Err(Refused::Lengths));
    assert_eq!(of(nan, &[0.5]), Err(Refused::Value));
    assert_eq!(of(reversed, &[0.5]), Err(Refused::Outside));
    assert_eq!(of(thin, &[f64::NAN]), Err(Refused::Thin));
    assert_eq!(of(side, &[f64::NAN]), Err(Refused::Value));
    assert_eq!(of(side, &[1.5]), Err(Refused::Outside));
    assert_eq!(of(side, &[1.0]).map(|indices| indices.len()), Ok(1));
}

#[test]
fn points_of_two_and_three_coordinates() {
    let curve = of_order(5);
    let flat = [[0.5, -3.0], [9.0, 4.0], [2.25, 0.0]];
    let solid = [[0.5, -3.0, 1.0], [9.0, 4.0, 7.5], [2.25, 0.0, 3.0]];
    let (xs, ys, zs) = ([0.5, 9.0, 2.25], [-3.0, 4.0, 0.0], [1.0, 7.5, 3.0]);
    assert_eq!(curve.index_points(&flat), curve.index_2d(&xs, &ys));
    assert_eq!(curve.index_points(&solid), curve.index_3d(&xs, &ys, &zs));
    assert_eq!(curve.index_points::<[f64; 2]>(&[]), Err(Refused::NoPoints));
    let (mut by_points, mut by_columns) = ([9; 3], [9; 3]);
    let order = curve.partition_points(&mut by_points, &solid, &[1, 2, 3]);
    assert_eq!(order, curve.partition_3d(&mut by_columns, &xs, &ys, &zs, &[1, 2, 3]));
    assert_eq!(by_points, by_columns);
    assert_eq!(
        curve.partition_points(&mut by_points, &flat, &[1, 2]),
        Err(Refused::Lengths)
    );
    assert_eq!(by_points, by_columns);
}
