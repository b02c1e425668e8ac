//! What a decision is made on: a value that is not marked outside its region.
use climboat::*;

#[test]
fn a_found_value_is_inside_as_it_is_marked() {
    // water and steam on the saturation line, and steam beyond it
    let outside = [
        pv2t(PvRegion::One, 0.09, 0.0010408989121683818, STEP_LIMIT),
        pv2t(PvRegion::Two, 0.003, 45.65502866881424, STEP_LIMIT),
        tv2p(Region::Two, 500.0, 0.07, STEP_LIMIT),
        th2p(Region::Two, 300.0, 2500.0, STEP_LIMIT),
    ];
    let inside = [
        pv2t(PvRegion::One, 0.2, 0.00103, STEP_LIMIT),
        tv2p(Region::Two, 500.0, 0.1, STEP_LIMIT),
        th2p(Region::Two, 500.0, 2900.0, STEP_LIMIT),
        ts2p(Region::Two, 500.0, 7.2, STEP_LIMIT),
        tv2p(Region::Five, 1500.0, 1.3845, STEP_LIMIT),
        th2p(Region::Five, 1500.0, 5200.0, STEP_LIMIT),
        ts2p(Region::Five, 1500.0, 9.0, STEP_LIMIT),
    ];
    for (answers, expected) in [(&outside[..], false), (&inside, true)] {
        for answer in answers {
            let reading = answer.unwrap();
            let marked = reading.search.unwrap().inside;
            assert_eq!(
                (marked, reading.is_inside()),
                (expected, expected),
                "{answer:?}"
            );
        }
    }
}

#[test]
fn a_value_without_a_mark_is_inside() {
    for answer in [
        property(Region::One, Property::Volume, 3.0, 300.0),
        property(Region::Five, Property::Volume, 0.5, 1500.0),
        saturation_pressure(500.0),
        saturation_temperature(1.0),
        b23_pressure(700.0),
        b23_temperature(50.0),
    ] {
        let reading = answer.unwrap();
        assert_eq!((reading.search, reading.is_inside()), (None, true));
    }
}
