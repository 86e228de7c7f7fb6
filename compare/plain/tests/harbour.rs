//! Berths, energy and tariff (02, A10 to A12) on numbers worked out by hand.

use plain::berths::{Berth, allot};
use plain::energy::{Day, Energy};
use plain::tariff::{Bill, bill};

// ---- Berths ---------------------------------------------------------------

fn berths(given: &[(i32, i32, i32)]) -> Vec<Berth> {
    let berth = |&(guarantee, cap, demand)| Berth {
        guarantee,
        cap,
        demand,
        allotment: -7,
    };
    given.iter().map(berth).collect()
}

/// The allotments, after a test that nothing else was changed.
fn allotted(limit: i32, given: &[(i32, i32, i32)]) -> Result<Vec<i32>, u8> {
    let before = berths(given);
    let mut after = before.clone();
    let answer = allot(limit, &mut after);
    for (berth, old) in after.iter().zip(&before) {
        let kept = Berth {
            allotment: old.allotment,
            ..*berth
        };
        assert_eq!(kept, *old);
        assert!(answer.is_ok() || berth == old);
    }
    answer.map(|()| after.iter().map(|berth| berth.allotment).collect())
}

/// First parts 6000, 4000, 6000, 6000 and 0 leave 8000 of 30000.
#[test]
fn what_is_left_goes_in_list_order() {
    let given = [
        (6000, 16000, 12000),
        (6000, 16000, 4000),
        (6000, 9000, 20000),
        (6000, 16000, 10000),
        (0, 16000, -500),
    ];
    assert_eq!(
        allotted(30000, &given),
        Ok(vec![12000, 4000, 8000, 6000, 0])
    );
}

#[test]
fn no_berth_passes_its_demand_or_its_cap() {
    let given = [(5000, 8000, 6000), (5000, 8000, 9000)];
    assert_eq!(allotted(20000, &given), Ok(vec![6000, 8000]));
    assert_eq!(allotted(i32::MAX, &[(9, 9, i32::MAX)]), Ok(vec![9]));
    let all = (0, i32::MAX, i32::MAX);
    assert_eq!(allotted(i32::MAX, &[all, all]), Ok(vec![i32::MAX, 0]));
}

#[test]
fn negative_demand_counts_as_zero() {
    let given = [(5, 10, i32::MIN), (5, 10, 10)];
    assert_eq!(allotted(10, &given), Ok(vec![0, 10]));
}

#[test]
fn one_to_sixteen_berths_are_taken() {
    for count in 0..40 {
        let answer = allotted(0, &vec![(0, 0, 0); count]);
        let taken = (1..=16).contains(&count);
        assert_eq!(answer, if taken { Ok(vec![0; count]) } else { Err(22) });
    }
}

#[test]
fn each_power_is_judged() {
    assert_eq!(allotted(-1, &[(0, 0, 0)]), Err(23));
    for place in 0..16 {
        for wrong in [(-1, 0, 0), (0, -1, 0), (6, 5, 0), (i32::MIN, i32::MAX, 0)] {
            let mut given = [(0, 0, 0); 16];
            given[place] = wrong;
            assert_eq!(allotted(100, &given), Err(23), "{wrong:?} at {place}");
        }
    }
}

#[test]
fn guarantees_sum_to_the_limit_at_most() {
    let given = [(5000, 8000, 6000), (5000, 8000, 9000)];
    assert_eq!(allotted(10000, &given), Ok(vec![5000, 5000]));
    assert_eq!(allotted(9999, &given), Err(24));
    assert_eq!(allotted(0, &[(0, 1, 1)]), Ok(vec![0]));
    // Their sum is 2^32 - 2, in 32 bits -2.
    let half = (i32::MAX, i32::MAX, 1);
    assert_eq!(allotted(i32::MAX, &[half, half]), Err(24));
}

/// "tested in that order"
#[test]
fn berths_are_refused_in_order() {
    assert_eq!(allotted(-1, &[]), Err(22));
    assert_eq!(allotted(-1, &[(-1, 0, 0); 17]), Err(22));
    assert_eq!(allotted(1, &[(2, 2, 0), (0, -1, 0)]), Err(23));
    assert_eq!(allotted(-1, &[(0, 0, 0)]), Err(23));
}

// ---- Energy ---------------------------------------------------------------

fn energy(watt_hours: u64, watt_seconds: u64) -> Energy {
    Energy {
        watt_hours,
        watt_seconds,
    }
}

fn day(import: (u64, u64), export: (u64, u64)) -> Day {
    Day {
        import: energy(import.0, import.1),
        export: energy(export.0, export.1),
    }
}

const NOTHING: (u64, u64) = (0, 0);

/// 3599 samples of 1000 W and one of 7 W are 3,599,007 Ws; a hundred of -250 W and
/// the lowest power are 2,147,508,648 Ws.
#[test]
fn import_and_export_are_apart() {
    let mut samples = vec![1000; 3599];
    samples.extend([-250; 100]);
    samples.extend([i32::MIN, 7]);
    assert_eq!(Day::of(&samples), Ok(day((999, 2607), (596_530, 648))));
    assert_eq!(Day::of(&[1, -1]), Ok(day((0, 1), (0, 1))));
}

/// 2^31 Ws and 86,400 times as much.
#[test]
fn lowest_power_is_whole() {
    let lowest = day(NOTHING, (596_523, 848));
    assert_eq!(Day::of(&[i32::MIN]), Ok(lowest));
    let longest = day(NOTHING, (51_539_607_552, 0));
    assert_eq!(Day::of(&[i32::MIN; 86_400]), Ok(longest));
    // One watt less each: 24 Wh less.
    let highest = day((51_539_607_528, 0), NOTHING);
    assert_eq!(Day::of(&[i32::MAX; 86_400]), Ok(highest));
}

#[test]
fn remainders_stay_below_a_watt_hour() {
    assert_eq!(Day::of(&[]), Ok(Day::default()));
    assert_eq!(Day::of(&[3599]), Ok(day((0, 3599), NOTHING)));
    assert_eq!(Day::of(&[3599, 1]), Ok(day((1, 0), NOTHING)));
    assert_eq!(Day::of(&[-3600, -1]), Ok(day(NOTHING, (1, 1))));
}

#[test]
fn samples_of_a_day_are_86_400_at_most() {
    assert_eq!(Day::of(&[1; 86_400]), Ok(day((24, 0), NOTHING)));
    assert_eq!(Day::of(&[1; 86_401]), Err(25));
    assert_eq!(Day::of(&[0; 200_000]), Err(25));
}

#[test]
fn a_join_carries() {
    let first = day((999, 2607), (596_530, 648));
    let second = day((1000, 993), (0, 100));
    assert_eq!(first.joined(second), Ok(day((2000, 0), (596_530, 748))));
    assert_eq!(second.joined(first), first.joined(second));
    let nearly = day((0, 3599), (0, 3599));
    assert_eq!(nearly.joined(nearly), Ok(day((1, 3598), (1, 3598))));
}

/// Each of four places of a join.
fn at_each_place(energy: (u64, u64)) -> [(Day, Day); 4] {
    let none = Day::default();
    let [import, export] = [day(energy, NOTHING), day(NOTHING, energy)];
    [
        (import, none),
        (export, none),
        (none, import),
        (none, export),
    ]
}

#[test]
fn each_remainder_is_judged() {
    for remainder in [3600, 3601, 7200, u64::MAX] {
        for (own, other) in at_each_place((0, remainder)) {
            assert_eq!(own.joined(other), Err(26), "{own:?} {other:?}");
        }
    }
    for (own, other) in at_each_place((0, 3599)) {
        assert!(own.joined(other).is_ok());
    }
}

const MOST: u64 = 9_007_199_254_740_992;

#[test]
fn joined_watt_hours_are_2_to_the_53_at_most() {
    for (own, other) in at_each_place((MOST, 3599)) {
        assert!(own.joined(other).is_ok());
    }
    for more in [MOST + 1, u64::MAX] {
        for (own, other) in at_each_place((more, 0)) {
            assert_eq!(own.joined(other), Err(27));
        }
    }
    let half = day((MOST / 2, 0), NOTHING);
    assert_eq!(half.joined(half), Ok(day((MOST, 0), NOTHING)));
    // 2^64 watt-hours are not 0.
    let most = day((u64::MAX, 0), NOTHING);
    assert_eq!(most.joined(day((1, 0), NOTHING)), Err(27));
    assert_eq!(most.joined(most), Err(27));
}

/// "the joined whole watt-hours with the carry"
#[test]
fn the_carry_is_judged() {
    let full = |seconds| day(NOTHING, (MOST - 1, seconds));
    let joined = full(1800).joined(day(NOTHING, (0, 1800)));
    assert_eq!(joined, Ok(day(NOTHING, (MOST, 0))));
    let brimming = day(NOTHING, (MOST, 1800));
    assert!(brimming.joined(day(NOTHING, (0, 1799))).is_ok());
    assert_eq!(brimming.joined(day(NOTHING, (0, 1800))), Err(27));
}

/// 26 in both directions before 27 in either.
#[test]
fn joins_are_refused_in_order() {
    let import_above = day((MOST + 1, 0), (0, 3600));
    assert_eq!(import_above.joined(Day::default()), Err(26));
    let export_above = day((0, 3600), (MOST + 1, 0));
    assert_eq!(Day::default().joined(export_above), Err(26));
}

// ---- Tariff ---------------------------------------------------------------

const PRICES: [u32; 4] = [25, 31, 18, 40];

/// At [`PRICES`] 180,000,000 and 55,911,569 and 1,777,680,040 over 3,600,000.
fn imports() -> [Energy; 4] {
    [
        energy(2000, 0),
        energy(500, 3599),
        energy(0, 0),
        energy(12345, 1),
    ]
}

/// 2,013,591,609 over 3,600,000 each time.
#[test]
fn the_rest_is_carried_to_the_next_bill() {
    let bills = [
        (559, 1_191_609),
        (559, 2_383_218),
        (559, 3_574_827),
        (560, 1_166_436),
    ];
    let mut rest = 0;
    for (cents, next) in bills {
        assert_eq!(
            bill(&PRICES, &imports(), rest),
            Ok(Bill { cents, rest: next })
        );
        rest = next;
    }
}

/// A kilowatt-hour at each rate by itself costs that rate's price.
#[test]
fn each_rate_has_its_price() {
    for rate in 0..4 {
        let mut imports = [energy(0, 0); 4];
        imports[rate] = energy(1000, 0);
        let cents = u64::from(PRICES[rate]);
        assert_eq!(bill(&PRICES, &imports, 17), Ok(Bill { cents, rest: 17 }));
    }
}

/// 30,923,764,545,599,599,999 over 3,600,000, more than 64 bits hold.
#[test]
fn the_highest_bill_is_exact() {
    let most = energy(2_147_483_648, 3599);
    let cents = 8_589_934_595_999;
    let rest = 3_199_999;
    assert_eq!(
        bill(&[1_000_000; 4], &[most; 4], 3_599_999),
        Ok(Bill { cents, rest })
    );
}

#[test]
fn each_price_is_judged() {
    for rate in 0..4 {
        let mut prices = PRICES;
        prices[rate] = 1_000_000;
        assert!(bill(&prices, &imports(), 0).is_ok());
        for price in [1_000_001, u32::MAX] {
            prices[rate] = price;
            assert_eq!(bill(&prices, &imports(), 0), Err(28));
        }
    }
}

#[test]
fn the_rest_is_judged() {
    let nothing = [energy(0, 0); 4];
    let kept = Bill {
        cents: 0,
        rest: 3_599_999,
    };
    assert_eq!(bill(&PRICES, &nothing, 3_599_999), Ok(kept));
    assert_eq!(bill(&PRICES, &nothing, 3_600_000), Err(29));
    assert_eq!(bill(&PRICES, &nothing, u32::MAX), Err(29));
}

#[test]
fn each_import_is_judged() {
    for rate in 0..4 {
        let with = |watt_hours, watt_seconds| {
            let mut imports = imports();
            imports[rate] = energy(watt_hours, watt_seconds);
            bill(&PRICES, &imports, 0).err()
        };
        assert_eq!(with(2_147_483_648, 3599), None);
        assert_eq!(with(2_147_483_649, 0), Some(30));
        assert_eq!(with(u64::MAX, 0), Some(30));
        assert_eq!(with(0, 3600), Some(30));
        assert_eq!(with(0, u64::MAX), Some(30));
    }
}

#[test]
fn bills_are_refused_in_order() {
    let wrong = [energy(0, 3600); 4];
    assert_eq!(bill(&[1_000_001; 4], &wrong, 3_600_000), Err(28));
    assert_eq!(bill(&PRICES, &wrong, 3_600_000), Err(29));
    assert_eq!(bill(&PRICES, &wrong, 0), Err(30));
}
