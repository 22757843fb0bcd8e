//! The curve's named cases A1 to A7, B1 and B2, round trips, the limits of the orders, and each refusal of the curve.
use skarvolm::{deposit, HilbertCurve, Refused};

fn of_order(order: u32) -> HilbertCurve {
    HilbertCurve {
        order,
        ..Default::default()
    }
}

#[test]
fn a1_to_a7() {
    let last = (1 << 30) - 1;
    let cases = [
        (0, (0, 0), 0),
        (1, (1, 0), 3),
        (2, (1, 0), 1),
        (2, (3, 3), 10),
        (7, (0, 127), 5461),
        (7, (127, 127), 10922),
        (30, (last, 0), 1152921504606846975),
    ];
    for (order, (x, y), index) in cases {
        assert_eq!(
            of_order(order).encode_2d(x, y),
            Ok(index),
            "({x}, {y}) at order {order}"
        );
        assert_eq!(of_order(order).decode_2d(index), Ok((x, y)), "{index} at order {order}");
    }
}

#[test]
fn orders_31_and_32() {
    let last = (1 << 32) - 1;
    let cases = [(31, (1 << 30, 0), 4227378850225105578), (32, (last, 0), u64::MAX)];
    for (order, (x, y), index) in cases {
        assert_eq!(of_order(order).encode_2d(x, y), Ok(index));
        assert_eq!(of_order(order).decode_2d(index), Ok((x, y)));
    }
    assert_eq!(of_order(32).encode_2d(1 << 32, 0), Err(Refused::Coordinate));
    assert_eq!(of_order(32).cell(0.0, 4.0, 4.0), Ok(last));
}

#[test]
fn b1_and_b2() {
    for (order, (x, y, z), index) in [(1, (1, 1, 1), 5), (2, (3, 0, 0), 63)] {
        assert_eq!(
            of_order(order).encode_3d(x, y, z),
            Ok(index),
            "({x}, {y}, {z}) at order {order}"
        );
        assert_eq!(
            of_order(order).decode_3d(index),
            Ok((x, y, z)),
            "{index} at order {order}"
        );
    }
}

#[test]
fn default_order_is_16() {
    let curve = HilbertCurve::default();
    assert_eq!(curve.order, 16);
    assert_eq!(curve.encode_2d(65535, 0), Ok((1 << 32) - 1));
    assert_eq!(curve.encode_2d(65536, 0), Err(Refused::Coordinate));
    assert_eq!(curve.encode_3d(65535, 0, 0), Ok((1 << 48) - 1));
}

#[test]
fn a_list_of_before_names_order_12() {
    assert_eq!(of_order(12).decode_2d(5592405), Ok((0, 4095)));
    assert_eq!(of_order(12).decode_3d(11998638790), Ok((1, 2, 4095)));
}

#[test]
fn there_and_back_in_2d() {
    for order in 0..=4 {
        for index in 0..1 << (2 * order) {
            let (x, y) = of_order(order).decode_2d(index).unwrap();
            assert_eq!(of_order(order).encode_2d(x, y), Ok(index));
        }
    }
    for order in 0..=32 {
        let last = ((1u128 << (2 * order)) - 1) as u64;
        for index in [0, last / 3, last / 2, last - last / 7, last] {
            let (x, y) = of_order(order).decode_2d(index).unwrap();
            assert_eq!(of_order(order).encode_2d(x, y), Ok(index));
        }
    }
}

#[test]
fn there_and_back_in_3d() {
    for order in 0..=3 {
        for index in 0..1 << (3 * order) {
            let (x, y, z) = of_order(order).decode_3d(index).unwrap();
            assert_eq!(of_order(order).encode_3d(x, y, z), Ok(index));
        }
    }
    for order in 0..=21 {
        let last = (1u64 << (3 * order)) - 1;
        for index in [0, last / 3, last / 2, last - last / 7, last] {
            let (x, y, z) = of_order(order).decode_3d(index).unwrap();
            assert_eq!(of_order(order).encode_3d(x, y, z), Ok(index));
        }
    }
}

#[test]
fn neighbours_on_the_curve_share_a_side() {
    let curve = of_order(5);
    let mut before = curve.decode_2d(0).unwrap();
    for index in 1..1 << 10 {
        let cell = curve.decode_2d(index).unwrap();
        assert_eq!(before.0.abs_diff(cell.0) + before.1.abs_diff(cell.1), 1);
        before = cell;
    }
}

#[test]
fn refusals_of_encoders() {
    assert_eq!(of_order(30).encode_2d(1 << 30, 0), Err(Refused::Coordinate));
    assert_eq!(of_order(30).encode_2d(0, 1 << 30), Err(Refused::Coordinate));
    assert_eq!(of_order(33).encode_2d(1 << 30, 0), Err(Refused::Order));
    assert_eq!(of_order(u32::MAX).encode_2d(u64::MAX, 0), Err(Refused::Order));
    assert_eq!(of_order(21).encode_3d(0, 0, 1 << 21), Err(Refused::Coordinate));
    assert_eq!(of_order(22).encode_3d(0, 0, 1 << 22), Err(Refused::Order));
}

#[test]
fn refusals_of_decoders() {
    assert_eq!(of_order(30).decode_2d(1 << 60), Err(Refused::Index));
    assert_eq!(of_order(31).decode_2d(1 << 62), Err(Refused::Index));
    assert_eq!(of_order(33).decode_2d(0), Err(Refused::Order));
    assert_eq!(of_order(1).decode_3d(8), Err(Refused::Index));
    assert_eq!(of_order(22).decode_3d(0), Err(Refused::Order));
}

#[test]
fn deposits() {
    assert_eq!(deposit(0b1011, 0x5555), 0b1000101);
    assert_eq!(deposit(u64::MAX, 0xaaaa), 0xaaaa);
    assert_eq!(deposit(u64::MAX, 0), 0);
}
