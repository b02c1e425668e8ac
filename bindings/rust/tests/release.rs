//! The release's check values, Tables 5, 15, 35, 36 and 42 and B23, to their nine digits: the values are those of crates/tables/stdout.
use climboat::*;

/// A line such as "Table 5, 3 MPa, 300 K: v = 0.100215168e-2 agrees": the table, its inputs, the symbol and the value.
struct Check<'a> {
    table: &'a str,
    inputs: Vec<f64>,
    symbol: &'a str,
    value: f64,
}

fn check(line: &str) -> Check<'_> {
    let (state, result) = line.split_once(": ").unwrap();
    let mut words = state.split(", ");
    let table = words.next().unwrap();
    let inputs = words
        .map(|word| word.split(' ').next().unwrap().parse().unwrap())
        .collect();
    let (symbol, value) = result
        .strip_suffix(" agrees")
        .unwrap()
        .split_once(" = ")
        .unwrap();
    Check {
        table,
        inputs,
        symbol,
        value: value.parse().unwrap(),
    }
}

fn answer(check: &Check) -> Result<Reading, Refusal> {
    let of_region = |region, p, t| {
        let mut properties = Property::ALL.iter();
        let of = properties.find(|property| property.symbol() == check.symbol);
        property(region, *of.unwrap(), p, t)
    };
    match (check.table, &check.inputs[..], check.symbol) {
        ("Table 5", &[p, t], _) => of_region(Region::One, p, t),
        ("Table 15", &[p, t], _) => of_region(Region::Two, p, t),
        ("Table 42", &[p, t], _) => of_region(Region::Five, p, t),
        ("Table 35", &[t], "p") => saturation_pressure(t),
        ("Table 36", &[p], "T") => saturation_temperature(p),
        ("B23", &[t], "p") => b23_pressure(t),
        ("B23", &[p], "T") => b23_temperature(p),
        (table, inputs, symbol) => panic!("{table} has no {symbol} at {inputs:?}"),
    }
}

#[test]
fn the_release_agrees_to_nine_digits() {
    let mut checked = 0;
    for line in include_str!("../../../crates/tables/stdout").lines() {
        let check = check(line);
        let reading = answer(&check).unwrap();
        assert_eq!(
            format!("{:.8e}", reading.value),
            format!("{:.8e}", check.value),
            "{line}"
        );
        assert_eq!(
            (reading.reason, reading.search),
            (Reason::Value, None),
            "{line}"
        );
        checked += 1;
    }
    // six properties at three states of Tables 5, 15 and 42 each, three points of Table 35 and of Table 36, two of B23
    assert_eq!(checked, 3 * 18 + 3 + 3 + 2);
}
