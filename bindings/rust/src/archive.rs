//! The archive's nine calls and its log, each wrapped once. All `unsafe` of the crate stands here.
#![allow(unsafe_code)]

/// What a call writes, the columns of documents 01 and 02: number, reason, steps, mark, region, kind, property;
/// and value, lower and upper end of the bracket, their residuals, first and second input. The last place of each is room.
#[derive(Default)]
pub struct Record {
    pub numbers: [u32; 8],
    pub doubles: [f64; 8],
}

macro_rules! calls {
    ($($name:ident = $symbol:ident($($x:ident: $kind:ty),*);)*) => {
        #[allow(non_snake_case)]
        extern "C" {
            $(fn $symbol($($x: $kind,)* numbers: &mut [u32; 8], doubles: &mut [f64; 8]);)*
        }
        $(pub fn $name($($x: $kind),*) -> Record {
            let mut record = Record::default();
            // SAFETY: the call asks nothing of its inputs, writes the two lent arrays whole, and keeps neither
            unsafe { $symbol($($x,)* &mut record.numbers, &mut record.doubles) };
            record
        })*
    };
}

calls! {
    property = climboat_pT_columns(region: u32, property: u32, p: f64, t: f64);
    saturation_pressure = climboat_saturation_pressure_columns(t: f64);
    saturation_temperature = climboat_saturation_temperature_columns(p: f64);
    b23_pressure = climboat_B23_pressure_columns(t: f64);
    b23_temperature = climboat_B23_temperature_columns(p: f64);
    pv2t = climboat_pv2T_columns(region: u32, p: f64, v: f64, limit: u32);
    tv2p = climboat_Tv2p_columns(region: u32, t: f64, v: f64, limit: u32);
    th2p = climboat_Th2p_columns(region: u32, t: f64, h: f64, limit: u32);
    ts2p = climboat_Ts2p_columns(region: u32, t: f64, s: f64, limit: u32);
}

#[allow(non_snake_case)]
extern "C" {
    fn climboat_pT_log_runs(
        region: u32,
        property: u32,
        p: *const f64,
        p_length: usize,
        t: *const f64,
        t_length: usize,
        values: *mut f64,
        values_length: usize,
        numbers: *mut u32,
        numbers_length: usize,
    ) -> u32;
}

/// Fills values and numbers with a property at every (p,T), and gives 0; or writes nothing, and gives the number of the refusal.
pub fn property_log(
    region: u32,
    property: u32,
    p: &[f64],
    t: &[f64],
    values: &mut [f64],
    numbers: &mut [u32],
) -> u32 {
    // SAFETY: each pointer is a slice's, with that slice's length: not null, and none of the written ones shares memory with another; the call keeps none of them
    unsafe {
        climboat_pT_log_runs(
            region,
            property,
            p.as_ptr(),
            p.len(),
            t.as_ptr(),
            t.len(),
            values.as_mut_ptr(),
            values.len(),
            numbers.as_mut_ptr(),
            numbers.len(),
        )
    }
}

#[cfg(test)]
mod tests {
    use super::*;

    const LIMIT: u32 = crate::STEP_LIMIT;

    #[test]
    fn a_call_that_does_not_search_writes_0_for_what_it_has_not() {
        let values = [
            (property(1, 7, 3.0, 300.0), [1, 1, 7], [3.0, 300.0]),
            (property(2, 1, 1.0, 700.0), [2, 1, 1], [1.0, 700.0]),
            (property(5, 6, 0.5, 1500.0), [5, 1, 6], [0.5, 1500.0]),
            (saturation_pressure(500.0), [0, 2, 0], [500.0, 0.0]),
            (saturation_temperature(1.0), [0, 3, 0], [1.0, 0.0]),
            (b23_pressure(700.0), [0, 4, 0], [700.0, 0.0]),
            (b23_temperature(50.0), [0, 5, 0], [50.0, 0.0]),
        ];
        for (record, asked, [first, second]) in values {
            let [region, kind, property] = asked;
            assert_eq!(record.numbers, [0, 1, 0, 0, region, kind, property, 0]);
            assert_ne!(record.doubles[0], 0.0, "{asked:?}");
            let rest = [0.0, 0.0, 0.0, 0.0, first, second, 0.0];
            assert_eq!(record.doubles[1..], rest, "{asked:?}");
        }
    }

    #[test]
    fn a_search_writes_nothing_into_the_room() {
        let found = [
            (pv2t(1, 3.0, 0.001, LIMIT), [1, 6, 0], [3.0, 0.001]),
            (tv2p(2, 500.0, 0.1, LIMIT), [2, 7, 0], [500.0, 0.1]),
            (th2p(2, 600.0, 3000.0, LIMIT), [2, 8, 0], [600.0, 3000.0]),
            (ts2p(2, 500.0, 7.2, LIMIT), [2, 9, 0], [500.0, 7.2]),
            (ts2p(2, 500.0, 7.2, 2), [2, 9, 0], [500.0, 7.2]),
            (ts2p(5, 1500.0, 9.0, LIMIT), [5, 9, 0], [1500.0, 9.0]),
        ];
        for (record, [region, kind, property], [first, second]) in found {
            assert_eq!(record.numbers[4..], [region, kind, property, 0]);
            assert_eq!(record.doubles[5..], [first, second, 0.0]);
        }
    }

    #[test]
    fn what_21_could_name_is_told() {
        let refused = [
            (property(3, 1, 3.0, 300.0), [0, 1, 1], [3.0, 300.0]),
            (property(1, 9, 3.0, 300.0), [1, 1, 0], [3.0, 300.0]),
            (property(0, 0, 3.0, 300.0), [0, 1, 0], [3.0, 300.0]),
            (pv2t(3, 3.0, 0.001, LIMIT), [0, 6, 0], [3.0, 0.001]),
            (pv2t(5, 0.5, 1.3845, LIMIT), [0, 6, 0], [0.5, 1.3845]),
            (tv2p(u32::MAX, 500.0, 0.1, LIMIT), [0, 7, 0], [500.0, 0.1]),
            (th2p(0, 600.0, 3000.0, LIMIT), [0, 8, 0], [600.0, 3000.0]),
            (ts2p(4, 500.0, 7.2, LIMIT), [0, 9, 0], [500.0, 7.2]),
        ];
        for (record, [region, kind, property], [first, second]) in refused {
            assert_eq!(record.numbers, [21, 0, 0, 0, region, kind, property, 0]);
            assert_eq!(
                record.doubles,
                [0.0, 0.0, 0.0, 0.0, 0.0, first, second, 0.0]
            );
        }
    }

    #[test]
    fn a_log_that_names_nothing_is_refused_by_21_before_its_lengths_are_looked_at() {
        for (region, property) in [(0, 1), (3, 1), (u32::MAX, 7), (1, 0), (5, 8), (4, 9)] {
            for lengths in [[2, 2, 2, 2], [0, 0, 0, 0], [1, 2, 2, 2], [2, 2, 2, 1]] {
                let [p, t, values, numbers] = lengths;
                let (mut values, mut numbers) = (vec![-1.0; values], vec![99; numbers]);
                let (p, t) = (vec![3.0; p], vec![300.0; t]);
                let number = property_log(region, property, &p, &t, &mut values, &mut numbers);
                assert_eq!(number, 21, "{region} {property} {lengths:?}");
                let unwritten =
                    values.iter().all(|&x| x == -1.0) && numbers.iter().all(|&n| n == 99);
                assert!(unwritten, "{region} {property} {lengths:?}");
            }
        }
    }
}
