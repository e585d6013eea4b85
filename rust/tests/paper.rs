//! The paper's known dates, singly and in drawers, its printed year, its figures of civil years, of a date's place and eclipse mark
//! and of the planets, asked of both sides: of capi through the wrapper, and of the independent one.

/// The paper's figures, as tests over the calls of one side.
macro_rules! paper_of {
    ($side:ident, $calls:path) => {
        mod $side {
            use oesterwrok::{
                Asked, Clerk, Conjunction, Date, DateRecord, DrawerRefused, EmendRefused, Emended,
                LeapMonth, Month, NewCounts, Pair, Phase, Reading, Reason, SearchRefused,
                SheetCounts, Term, YearFacts,
            };
            use $calls as calls;

            const LAST_DAY: u64 = 14_989_859;

            /// A date asked by its civil year.
            fn asked(year: u64, month: Month, day_of_month: u64) -> Asked {
                Asked {
                    year,
                    number: month.number().into(),
                    leap: month.is_leap(),
                    day_of_month,
                }
            }

            fn date_and_name(date: Date) -> (u32, Month, u32, u32) {
                (date.year, date.month, date.day_of_month, date.day_name)
            }

            /// What the desk's card shows besides: ji, bu, year in the bu and eclipse mark.
            fn card(date: Date) -> (u32, u32, u32, bool) {
                (date.ji, date.bu, date.year_in_bu, date.eclipse)
            }

            #[test]
            fn first_days() {
                assert_eq!(
                    date_and_name(calls::date_of_day(0).unwrap()),
                    (0, Month::Ordinary(11), 1, 1)
                );
                assert_eq!(calls::date_of_day(0).unwrap().year_name, 16);
                let origin = asked(0, Month::Ordinary(11), 1);
                assert_eq!(calls::day_of_date(origin), Ok(0));
                assert_eq!(calls::move_date(origin, -1), Err(Reason::MoveEnds));
                assert_eq!(
                    date_and_name(calls::date_of_day(29).unwrap()),
                    (0, Month::Ordinary(12), 1, 30)
                );
                assert_eq!(
                    date_and_name(calls::date_of_day(28).unwrap()),
                    (0, Month::Ordinary(11), 29, 29)
                );
            }

            #[test]
            fn last_day() {
                let date = calls::date_of_day(LAST_DAY).unwrap();
                assert_eq!(date_and_name(date), (41_040, Month::Leap(10), 30, 60));
                assert_eq!(calls::day_of_date(date.asked()), Ok(LAST_DAY as u32));
                assert_eq!(calls::date_of_day(LAST_DAY + 1), Err(Reason::DayCount));
            }

            #[test]
            fn places_of_solstice_years() {
                let place = |year| {
                    let facts = calls::solstice_year(year).unwrap();
                    (facts.ji, facts.bu, facts.year_in_bu)
                };
                assert_eq!(place(76), (1, 1, 76));
                assert_eq!(place(77), (1, 2, 1));
                assert_eq!(calls::solstice_year(77).unwrap().head_name, 40);
                assert_eq!(place(9_366), (1, 4, 18));
                assert_eq!(place(1), (1, 1, 1));
                assert_eq!(calls::solstice_year(0), Err(Reason::Year));
                assert_eq!(calls::solstice_year(41_041), Err(Reason::Year));
            }

            /// The request's figures: name, months and leap month of civil years, and the range's ends.
            #[test]
            fn civil_years() {
                let facts = |name, first_month, months, leap: Option<(u32, u32)>| {
                    Ok(YearFacts {
                        name,
                        first_month,
                        months,
                        leap: leap.map(|(number, month)| LeapMonth { number, month }),
                    })
                };
                // Year 0 has month counts 0 and 1; year 1, the first with a month 1, opens with the next.
                assert_eq!(calls::year_facts(0), facts(16, 0, 2, None));
                assert_eq!(calls::year_facts(1), facts(17, 2, 12, None));
                // Year 8 has months 88 to 100, the last of them, days 2,953 to 2,981, between the mid-terms of 2,952 and 2,982.
                assert_eq!(calls::year_facts(8), facts(24, 88, 13, Some((12, 100))));
                // Year 11 has months 125 to 137.
                assert_eq!(calls::year_facts(11), facts(27, 125, 13, Some((9, 134))));
                // Solstice year 27 has months 321 to 332, so its month 1 is 323; leap 11 is month 334, the next month 1 is 336.
                assert_eq!(calls::year_facts(27), facts(43, 323, 13, Some((11, 334))));
                // Year 41,040 has months 507,589 to 507,599.
                let last = facts(16, 507_589, 11, Some((10, 507_599)));
                assert_eq!(calls::year_facts(41_040), last);
                assert_eq!(calls::year_facts(41_041), Err(Reason::Year));
            }

            /// A leap month of number 11 or 12 closes the civil year.
            #[test]
            fn leap_months_that_close_a_year() {
                let leap_eleven = calls::date_of_day(9_863).unwrap();
                assert_eq!(date_and_name(leap_eleven), (27, Month::Leap(11), 1, 24));
                assert_eq!(leap_eleven.year_name, 43);
                let leap_twelve = calls::date_of_day(2_953).unwrap();
                assert_eq!(date_and_name(leap_twelve), (8, Month::Leap(12), 1, 14));
                assert_eq!(calls::day_of_date(leap_twelve.asked()), Ok(2_953));
                let next = calls::date_of_day(2_982).unwrap();
                assert_eq!(date_and_name(next), (9, Month::Ordinary(1), 1, 43));
            }

            /// The months of civil years 1 to 41,039 bear 1 to 12 in order, a leap month after its namesake; each month lies in one
            /// year.
            #[test]
            fn months_of_civil_years() {
                let mut months = 0;
                for year in 0..=41_040_u64 {
                    let facts = calls::year_facts(year).unwrap();
                    assert_eq!(facts.first_month, months);
                    months += facts.months;
                    let held = (facts.first_month..months)
                        .map(|n| calls::month_facts(n.into()).unwrap().month)
                        .collect::<Vec<_>>();
                    let numbers = match year {
                        0 => 11..=12,
                        41_040 => 1..=10,
                        _ => 1..=12,
                    };
                    let leap = facts.leap.map(|leap| leap.number);
                    let in_order = numbers.flat_map(|number| {
                        let after = (leap == Some(number)).then_some(Month::Leap(number));
                        [Some(Month::Ordinary(number)), after]
                    });
                    assert_eq!(held, in_order.flatten().collect::<Vec<_>>());
                }
                assert_eq!(months, 507_600);
            }

            /// The civil year is one less than the solstice year on 2,487,240 days, and else the same.
            #[test]
            fn days_of_both_years() {
                let (mut day, mut less) = (0, 0);
                for year in 1..=41_040_u32 {
                    let facts = calls::solstice_year(year.into()).unwrap();
                    let after = u64::from(facts.first_month + facts.months);
                    let end =
                        calls::month_facts(after).map_or(LAST_DAY + 1, |m| m.first_day.into());
                    while day < end {
                        let date = calls::date_of_day(day).unwrap();
                        if date.month.number() >= 11 {
                            assert_eq!(date.year, year - 1);
                            less += 1;
                        } else {
                            assert_eq!(date.year, year);
                        }
                        day += 1;
                    }
                }
                assert_eq!((day, less), (14_989_860, 2_487_240));
            }

            /// 16 looks at the number alone; it comes after 3 and before 4, and before a move's 8.
            #[test]
            fn numbers_that_a_year_has_not() {
                let refused = |year, month, day, reason| {
                    let date = asked(year, month, day);
                    assert_eq!(calls::day_of_date(date), Err(reason), "{date:?}");
                    assert_eq!(calls::move_date(date, i64::MIN), Err(reason), "{date:?}");
                };
                for number in 1..=10 {
                    refused(0, Month::Ordinary(number), 1, Reason::NoSuchNumber);
                    refused(0, Month::Leap(number), 30, Reason::NoSuchNumber);
                    refused(0, Month::Leap(number), 31, Reason::DayOfMonth);
                    refused(41_041, Month::Ordinary(number), 0, Reason::Year);
                }
                for number in [11, 12] {
                    refused(0, Month::Leap(number), 1, Reason::NoSuchLeap);
                    refused(41_040, Month::Ordinary(number), 1, Reason::NoSuchNumber);
                    refused(41_040, Month::Leap(number), 30, Reason::NoSuchNumber);
                    refused(41_040, Month::Leap(number), 0, Reason::DayOfMonth);
                }
                for number in [0, 13] {
                    refused(0, Month::Ordinary(number), 31, Reason::MonthNumber);
                    refused(41_040, Month::Leap(number), 0, Reason::MonthNumber);
                }
                refused(0, Month::Ordinary(11), 30, Reason::NoDayThirty);
                refused(41_040, Month::Leap(9), 1, Reason::NoSuchLeap);
                let last = asked(41_040, Month::Leap(10), 30);
                assert_eq!(calls::day_of_date(last), Ok(LAST_DAY as u32));
                assert_eq!(calls::move_date(last, 1), Err(Reason::MoveEnds));
            }

            #[test]
            fn year_85() {
                let facts = calls::solstice_year(9_366).unwrap();
                assert_eq!((facts.leap_remainder, facts.first_month), (5, 115_830));
                let month = calls::month_facts(115_830).unwrap();
                assert_eq!((month.first_day, month.first_name), (3_420_558, 19));
                let first = calls::date_of_day(3_420_558).unwrap();
                assert_eq!(date_and_name(first), (9_365, Month::Ordinary(11), 1, 19));
                assert_eq!(first.year_name, 21);
                assert_eq!(calls::year_facts(9_365).unwrap().name, 21);
                assert_eq!(calls::year_facts(9_366).unwrap().name, 22);
                let full = u64::from(calls::quarter(115_830, 2).unwrap().day);
                assert_eq!(
                    (full, calls::date_of_day(full).unwrap().day_name),
                    (3_420_573, 34)
                );
                let solstice = u64::from(calls::term(9_366, 0).unwrap().day);
                assert_eq!(
                    (
                        solstice,
                        date_and_name(calls::date_of_day(solstice).unwrap())
                    ),
                    (3_420_566, (9_365, Month::Ordinary(11), 9, 27))
                );
            }

            /// Terms of solstice years with the rest in parts of 32. The 8 of year 9,366's solstice is 004's; the others are by
            /// hand: one at a day's start, the last in range, and those just outside it.
            #[test]
            fn terms_with_their_rest() {
                let falls = |day, parts| Ok(Term { day, parts });
                assert_eq!(calls::term(9_366, 0), falls(3_420_566, 8));
                assert_eq!(calls::term(44, 10), falls(15_857, 30));
                assert_eq!(calls::term(3, 16), falls(974, 0));
                assert_eq!(calls::term(41_040, 23), falls(14_989_844, 25));
                assert_eq!(calls::term(41_040, 24), Err(Reason::TermOrQuarter));
                assert_eq!(calls::term(41_041, 24), Err(Reason::Year));
                assert_eq!(calls::term(0, 24), Err(Reason::Year));
            }

            #[test]
            fn year_176() {
                let month = calls::month_facts(116_957).unwrap();
                assert_eq!((month.month, month.first_name), (Month::Ordinary(1), 60));
                let day = calls::day_of_date(asked(9_457, Month::Ordinary(1), 1)).unwrap();
                assert_eq!(day, month.first_day);
                let leap = LeapMonth {
                    number: 5,
                    month: 116_962,
                };
                assert_eq!(calls::year_facts(9_457).unwrap().leap, Some(leap));
            }

            #[test]
            fn leap_of_year_11() {
                let leap = LeapMonth {
                    number: 9,
                    month: 134,
                };
                assert_eq!(calls::year_facts(11).unwrap().leap, Some(leap));
                assert_eq!(
                    calls::day_of_date(asked(11, Month::Leap(8), 1)),
                    Err(Reason::NoSuchLeap)
                );
                assert_eq!(
                    calls::day_of_date(asked(11, Month::Leap(9), 30)),
                    Err(Reason::NoDayThirty)
                );
            }

            #[test]
            fn eclipse_months() {
                let eclipses: Vec<u64> = (0..8)
                    .filter(|&n| calls::month_facts(n).unwrap().eclipse)
                    .collect();
                assert_eq!(eclipses, [5]);
                assert!(calls::month_facts(134).unwrap().eclipse);
                assert!(!calls::month_facts(135).unwrap().eclipse);
            }

            #[test]
            fn a_bu_later() {
                let date = calls::move_date(asked(0, Month::Ordinary(11), 1), 27_759).unwrap();
                assert_eq!(date_and_name(date), (76, Month::Ordinary(11), 1, 40));
                assert_eq!(date.year_name, 32);
                assert_eq!(card(date), (1, 2, 1, false));
            }

            /// The place is that of the solstice year in which the day lies, not of the civil year; the eclipse mark is the
            /// month's. By hand, on both sides of a bu's head, a ji's, a yuan's, and of the range.
            #[test]
            fn cards() {
                let shown = |day| card(calls::date_of_day(day).unwrap());
                assert_eq!(shown(0), (1, 1, 1, false));
                // Leap 10 of civil year 76 closes solstice year 76; 23 x 940, divided by 135, leaves 20.
                let last_of_bu = calls::date_of_day(27_758).unwrap();
                assert_eq!(date_and_name(last_of_bu), (76, Month::Leap(10), 30, 39));
                assert_eq!(card(last_of_bu), (1, 1, 76, true));
                // Month 11 of the same civil year opens solstice year 77.
                let head_of_bu = calls::date_of_day(27_759).unwrap();
                assert_eq!(date_and_name(head_of_bu), (76, Month::Ordinary(11), 1, 40));
                assert_eq!(
                    (head_of_bu.year_name, card(head_of_bu)),
                    (32, (1, 2, 1, false))
                );
                assert_eq!(shown(555_179), (1, 20, 76, false));
                assert_eq!(shown(555_180), (2, 1, 1, true));
                assert_eq!(shown(1_665_539), (3, 20, 76, false));
                assert_eq!(shown(1_665_540), (1, 1, 1, true));
                assert_eq!(shown(LAST_DAY), (3, 20, 76, true));
                // Leap months that close a civil year: 12 of year 8, and the month after it; 11 of year 27.
                assert_eq!(shown(2_953), (1, 1, 9, false));
                assert_eq!(shown(2_982), (1, 1, 9, false));
                assert_eq!(shown(9_863), (1, 1, 28, true));
                // Solstice year 9,366 and its solstice. 115,830 months are 858 times 135, without rest: the eclipse is in the month
                // already counted, which ends the day before.
                assert_eq!(shown(3_420_557), (1, 4, 17, true));
                assert_eq!(shown(3_420_558), (1, 4, 18, false));
                assert_eq!(shown(3_420_566), (1, 4, 18, false));
            }

            /// Every date has the place of its solstice year and the eclipse mark of its month, as these are told themselves.
            #[test]
            fn cards_of_every_day() {
                let mut days = 0;
                for year in 1..=41_040 {
                    let facts = calls::solstice_year(year).unwrap();
                    for n in facts.first_month..facts.first_month + facts.months {
                        let month = calls::month_facts(n.into()).unwrap();
                        let told = (facts.ji, facts.bu, facts.year_in_bu, month.eclipse);
                        assert_eq!(days, month.first_day);
                        for day in days..days + month.month_length {
                            assert_eq!(card(calls::date_of_day(day.into()).unwrap()), told);
                        }
                        days += month.month_length;
                    }
                }
                assert_eq!(days, 14_989_860);
            }

            /// A move over 27,759 days keeps the year in the bu and puts the bu one on, round twenty, and the ji, round three, when
            /// the bu passes from 20 to 1. It need not keep the eclipse mark; 749,493 days do. Of every month a day: none is
            /// shorter than 29.
            #[test]
            fn cards_of_moves() {
                for day in (0..=LAST_DAY - 27_759).step_by(29) {
                    let from = calls::date_of_day(day).unwrap();
                    let to = calls::move_date(from.asked(), 27_759).unwrap();
                    let bu = from.bu % 20 + 1;
                    let ji = if bu == 1 { from.ji % 3 + 1 } else { from.ji };
                    assert_eq!((to.ji, to.bu, to.year_in_bu), (ji, bu, from.year_in_bu));
                    if day + 749_493 <= LAST_DAY {
                        let far = calls::move_date(from.asked(), 749_493).unwrap();
                        assert_eq!(far.eclipse, from.eclipse);
                    }
                }
                let last_of_bu = asked(76, Month::Leap(10), 30);
                let moved = |days| card(calls::move_date(last_of_bu, days).unwrap());
                assert_eq!(moved(27_759), (1, 2, 76, false));
                assert_eq!(moved(749_493), (2, 8, 76, true));
            }

            /// A record as it may stand in a list before it is lent.
            const STOOD: DateRecord = DateRecord {
                reason: 7,
                year: 77,
                number: 777,
                leap: true,
                day_of_month: 7_777,
                month_length: 77_777,
                day_name: 777_777,
                year_name: 7_777_777,
                ji: 77_777_777,
                bu: 777_777_777,
                year_in_bu: u32::MAX,
                eclipse: true,
            };

            /// What a drawer gives, and the records that were lent: so many, each as it stood.
            fn drawer(
                days: &[u32],
                places: usize,
            ) -> (Result<u32, DrawerRefused>, Vec<DateRecord>) {
                let mut records = vec![STOOD; places];
                let answer = calls::dates(days, &mut records);
                (answer, records)
            }

            /// Holds a drawer to be refused, and its records to be as they stood.
            fn drawer_refused(days: &[u32], places: usize, reason: Reason, place: Option<u32>) {
                let answer = Err(DrawerRefused { reason, place });
                assert_eq!(drawer(days, places), (answer, vec![STOOD; places]));
            }

            /// The known dates of single days, in any order and one of them twice; the records beyond them stay.
            #[test]
            fn a_drawer() {
                let days = [LAST_DAY as u32, 29, 27_759, 0, 2_953, 29];
                let (answer, records) = drawer(&days, 8);
                assert_eq!(answer, Ok(6));
                assert_eq!(records[6..], [STOOD; 2]);
                let dates: Vec<Date> = records[..6].iter().map(DateRecord::date).collect();
                let known = [
                    ((41_040, Month::Leap(10), 30, 60), (3, 20, 76, true)),
                    ((0, Month::Ordinary(12), 1, 30), (1, 1, 1, false)),
                    ((76, Month::Ordinary(11), 1, 40), (1, 2, 1, false)),
                    ((0, Month::Ordinary(11), 1, 1), (1, 1, 1, false)),
                    ((8, Month::Leap(12), 1, 14), (1, 1, 9, false)),
                    ((0, Month::Ordinary(12), 1, 30), (1, 1, 1, false)),
                ];
                let lengths_and_years =
                    [(30, 16), (30, 16), (29, 32), (29, 16), (29, 24), (30, 16)];
                for (place, date) in dates.into_iter().enumerate() {
                    assert_eq!((date_and_name(date), card(date)), known[place]);
                    let told = (date.month_length, date.year_name);
                    assert_eq!(told, lengths_and_years[place]);
                    assert_eq!(calls::date_of_day(days[place].into()), Ok(date));
                    assert_eq!(records[place].reason, 0);
                    assert_eq!(records[place], DateRecord::from(date));
                }
            }

            /// An empty list is filled with nothing, whatever is lent.
            #[test]
            fn an_empty_drawer() {
                for places in [0, 1, 5_000] {
                    assert_eq!(drawer(&[], places), (Ok(0), vec![STOOD; places]));
                }
            }

            /// More than 4,096 days is 10, then too few records 12, then a day out of range 6, with the place of the first one.
            #[test]
            fn drawers_refused() {
                use Reason::{CountAbove, DayCount, LentTooShort};
                let end = LAST_DAY as u32 + 1;
                let mut days: Vec<u32> = (0..5_000).collect();
                assert_eq!(drawer(&days[..4_096], 4_096).0, Ok(4_096));
                for room in [0, 4_096, 4_097, 5_000] {
                    drawer_refused(&days[..4_097], room, CountAbove, None);
                    drawer_refused(&days, room, CountAbove, None);
                }
                drawer_refused(&days[..4_096], 4_095, LentTooShort, None);
                drawer_refused(&days[..1], 0, LentTooShort, None);
                days[4_095] = u32::MAX;
                drawer_refused(&days[..4_096], 4_096, DayCount, Some(4_095));
                assert_eq!(drawer(&days[..4_095], 4_096).0, Ok(4_095));
                days[7] = end;
                drawer_refused(&days[..4_096], 4_100, DayCount, Some(7));
                drawer_refused(&days[..4_096], 4_095, LentTooShort, None);
                drawer_refused(&days, 0, CountAbove, None);
                drawer_refused(&[end], 1, DayCount, Some(0));
                drawer_refused(&[0, end, end + 1], 3, DayCount, Some(1));
            }

            /// Any nineteen civil years in a row within 1 to 41,039.
            #[test]
            fn nineteen_years_hold_235_months() {
                let years: Vec<YearFacts> = (1..=41_039)
                    .map(|year| calls::year_facts(year).unwrap())
                    .collect();
                for nineteen in years.windows(19) {
                    let months: u32 = nineteen.iter().map(|year| year.months).sum();
                    let leaps = nineteen.iter().filter(|year| year.leap.is_some()).count();
                    assert_eq!((months, leaps), (235, 7));
                }
            }

            fn falls(day: u32, parts: u32, divisor: u32, phase: Phase) -> Conjunction {
                Conjunction {
                    day,
                    parts,
                    divisor,
                    phase,
                }
            }

            /// The request's checks for k = 1; two of them make the days of k = 2, and of Venus and Mercury a whole round.
            #[test]
            fn first_conjunctions() {
                use Phase::{Evening, Morning, Neither};
                let figures = [
                    (398, 14_641, 797, 11_974, 17_308, Neither, Neither),
                    (779, 1_872, 1_559, 228, 3_516, Neither, Neither),
                    (378, 2_163, 756, 4_326, 36_384, Neither, Neither),
                    (292, 281, 584, 562, 23_320, Morning, Evening),
                    (57, 44_805, 115, 41_978, 47_632, Morning, Evening),
                ];
                for (planet, (day_1, parts_1, day_2, parts_2, divisor, odd, even)) in
                    (1..).zip(figures)
                {
                    let kth = |k| calls::conjunction(planet, k);
                    assert_eq!(kth(0), Ok(falls(0, 0, divisor, even)));
                    assert_eq!(kth(1), Ok(falls(day_1, parts_1, divisor, odd)));
                    assert_eq!(kth(2), Ok(falls(day_2, parts_2, divisor, even)));
                    let next = |day: u32| calls::next_conjunction(planet, day.into()).unwrap().k;
                    assert_eq!((next(0), next(1), next(day_1)), (0, 1, 1));
                    assert_eq!((next(day_1 + 1), next(day_2)), (2, 2));
                }
            }

            /// The last conjunction in range of each planet, worked out by hand, and the next one's day, which is outside it.
            #[test]
            fn last_conjunctions() {
                use Phase::{Evening, Morning, Neither};
                let lasts = [
                    (37_583, falls(14_989_825, 14_075, 17_308, Neither)),
                    (19_229, falls(14_989_628, 3_396, 3_516, Neither)),
                    (39_649, falls(14_989_679, 3_699, 36_384, Neither)),
                    (51_333, falls(14_989_854, 12_813, 23_320, Morning)),
                    (258_710, falls(14_989_825, 16_190, 47_632, Evening)),
                ];
                for (planet, (k, last)) in (1..).zip(lasts) {
                    assert_eq!(calls::conjunction(planet, k), Ok(last));
                    assert_eq!(calls::conjunction(planet, k + 1), Err(Reason::DayCount));
                    let next = |day| calls::next_conjunction(planet, day);
                    let found = next(last.day.into()).unwrap();
                    assert_eq!((u64::from(found.k), found.conjunction), (k, last));
                    let after = u64::from(last.day) + 1;
                    assert_eq!(next(after), Err(Reason::NoConjunctionLeft));
                    assert_eq!(next(LAST_DAY), Err(Reason::NoConjunctionLeft));
                    assert_eq!(next(LAST_DAY + 1), Err(Reason::DayCount));
                }
            }

            /// 004 counts 11,826 conjunctions of Venus by the end of solstice year 9,455, the last one an evening one.
            #[test]
            fn venus_in_9455() {
                let found = calls::next_conjunction(4, 3_453_334).unwrap();
                let falls = falls(3_453_334, 11_666, 23_320, Phase::Evening);
                assert_eq!((found.k, found.conjunction), (11_826, falls));
            }

            #[test]
            fn planets_refused() {
                for planet in [0, 6, 257, 1 << 32 | 1, u64::MAX] {
                    assert_eq!(calls::conjunction(planet, u64::MAX), Err(Reason::Planet));
                    assert_eq!(
                        calls::next_conjunction(planet, u64::MAX),
                        Err(Reason::Planet)
                    );
                    assert_eq!(calls::reduced_pair(planet), Err(Reason::Planet));
                }
                for k in [1 << 32 | 1, 1_341_063_005_370, u64::MAX] {
                    assert_eq!(calls::conjunction(3, k), Err(Reason::DayCount));
                }
                assert_eq!(calls::next_conjunction(3, 1 << 32), Err(Reason::DayCount));
            }

            #[test]
            fn printed_pairs() {
                let pairs = [
                    (4_725, 4_327),
                    (1_876, 879),
                    (9_415, 9_096),
                    (4_661, 5_830),
                    (1_889, 11_908),
                ];
                for (planet, (years, conjunctions)) in (1..).zip(pairs) {
                    let pair = Pair {
                        years,
                        conjunctions,
                    };
                    assert_eq!(calls::reduced_pair(planet), Ok(pair));
                }
            }

            #[test]
            fn a_day_is_found() {
                let mut out = [7; 4];
                let reading = Reading {
                    month_number: Some(12),
                    day_of_month: Some(1),
                    ..Reading::default()
                };
                assert_eq!(calls::search(&reading, 0, 100, &mut out), Ok(1));
                assert_eq!(out, [29, 7, 7, 7]);
                let refused = SearchRefused {
                    reason: Reason::LentTooShort,
                    total: Some(1),
                };
                assert_eq!(calls::search(&reading, 0, 100, &mut []), Err(refused));
            }

            /// Month 136, days 4,016 to 4,044, is month 11 of civil year 11, name 27; month 123, day 3,632 on, is that of year 10.
            #[test]
            fn a_name_is_of_the_civil_year() {
                let mut out = [7; 60];
                let reading = Reading {
                    year_name: Some(27),
                    month_number: Some(11),
                    ..Reading::default()
                };
                assert_eq!(calls::search(&reading, 3_600, 4_100, &mut out), Ok(29));
                assert_eq!((out[0], out[28], out[29]), (4_016, 4_044, 7));
            }

            /// A reading of six values, each known.
            fn read_whole(values: [u64; 6]) -> Reading {
                let [year_name, month_number, leap_mark, day_of_month, day_name, first_name] =
                    values.map(Some);
                Reading {
                    year_name,
                    month_number,
                    leap_mark,
                    day_of_month,
                    day_name,
                    first_name,
                }
            }

            /// Holds an emending to what it lists at the front of a list of sevens.
            fn emends(reading: &Reading, (first, last): (u64, u64), places: usize, listed: &[u32]) {
                let mut out = vec![7; places];
                let total = listed.len() as u32 / 4;
                let answer = calls::emend(reading, first, last, &mut out);
                assert_eq!(answer, Ok(Emended::Emendations(total)));
                assert_eq!(&out[..listed.len()], listed);
                assert!(out[listed.len()..].iter().all(|&place| place == 7));
            }

            /// Holds an emending to an answer that leaves the list as it was.
            fn emends_nothing(
                reading: &Reading,
                (first, last): (u64, u64),
                places: usize,
                answer: Result<Emended, EmendRefused>,
            ) {
                let mut out = vec![7; places];
                assert_eq!(calls::emend(reading, first, last, &mut out), answer);
                assert_eq!(out, vec![7; places]);
            }

            /// Day 3,838 is the 30th of month 5 of civil year 11, name 59, its month's first day has name 30. Read as the 29th it
            /// is one fault away, and so is the 29th itself, by its name.
            #[test]
            fn a_day_of_month_is_emended() {
                let slip = read_whole([27, 5, 1, 29, 59, 30]);
                let two = [3_837, 5, 59, 58, 3_838, 4, 29, 30];
                for places in 8..13 {
                    emends(&slip, (3_691, 4_074), places, &two);
                }
                let short = Err(EmendRefused {
                    reason: Reason::LentTooShort,
                    total: Some(2),
                });
                for places in 0..8 {
                    emends_nothing(&slip, (3_691, 4_074), places, short);
                }
                emends(&slip, (3_838, 4_074), 4, &two[4..]);
                emends(&slip, (3_839, 4_074), 0, &[]);
                let two_faults = read_whole([28, 5, 1, 29, 59, 30]);
                emends(&two_faults, (3_691, 4_074), 9, &[]);
                let right = read_whole([27, 5, 1, 30, 59, 30]);
                for places in [0, 8] {
                    emends_nothing(&right, (3_691, 4_074), places, Ok(Emended::Fits(1)));
                }
            }

            /// Day 3,961, the 5th of leap 9 of civil year 11: each of its six values misread.
            #[test]
            fn each_field_is_emended() {
                let values = [27, 9, 2, 5, 2, 58];
                let misread = [28, 8, 1, 6, 3, 59];
                for place in 0..6 {
                    let mut read = values;
                    read[place] = misread[place];
                    let (was, should) = (misread[place] as u32, values[place] as u32);
                    let one = [3_961, place as u32 + 1, was, should];
                    emends(&read_whole(read), (3_961, 3_961), 5, &one);
                    read[(place + 1) % 6] = misread[(place + 1) % 6];
                    emends(&read_whole(read), (3_961, 3_961), 5, &[]);
                }
            }

            /// An emending's reasons before 12 are a search's, in its order; where nothing was read every day fits.
            #[test]
            fn emendings_refused() {
                let refused = |reason| {
                    Err(EmendRefused {
                        reason,
                        total: None,
                    })
                };
                let good = read_whole([27, 5, 1, 29, 59, 30]);
                let bad = read_whole([27, 5, 3, 29, 59, 30]);
                let end = LAST_DAY + 1;
                for reading in [good, bad] {
                    for window in [(end, 0), (0, end), (1 << 32, 0)] {
                        emends_nothing(&reading, window, 0, refused(Reason::DayCount));
                    }
                    for window in [(1, 0), (0, 27_759)] {
                        emends_nothing(&reading, window, 0, refused(Reason::Window));
                    }
                }
                emends_nothing(&bad, (0, 27_758), 0, refused(Reason::Field));
                let every_day = Ok(Emended::Fits(27_759));
                emends_nothing(&Reading::default(), (0, 27_758), 0, every_day);
            }

            #[test]
            fn sheet_of_year_11() {
                let bytes = [1, 0, 11, 0, 0, 0, 0, 0];
                let (mut years, mut months, mut days) = ([5; 2], [6; 2], [7; 2]);
                let counts = calls::read_sheet(&bytes, &mut years, &mut months, &mut days);
                assert_eq!(
                    counts,
                    Ok(SheetCounts {
                        years: 1,
                        months: 0,
                        days: 0
                    })
                );
                assert_eq!((years, months, days), ([11, 5], [6, 6], [7, 7]));
                let mut out = [9; 10];
                assert_eq!(calls::write_sheet(&[11], &[], &[], &mut out), Ok(8));
                assert_eq!(out, [1, 0, 11, 0, 0, 0, 0, 0, 9, 9]);
            }

            /// A sheet takes civil years, 0 to 41,040 (50 A0 in its two bytes), reading and writing.
            #[test]
            fn sheet_of_the_first_and_the_last_year() {
                let bytes = [2, 0, 0, 0, 0x50, 0xA0, 0, 0, 0, 0];
                let mut years = [5; 3];
                let counts = calls::read_sheet(&bytes, &mut years, &mut [], &mut []);
                assert_eq!(counts.map(|counts| counts.years), Ok(2));
                assert_eq!(years, [0, 41_040, 5]);
                let mut out = [9; 10];
                assert_eq!(calls::write_sheet(&years[..2], &[], &[], &mut out), Ok(10));
                assert_eq!(out, bytes);
                let beyond = [1, 0, 0x51, 0xA0, 0, 0, 0, 0];
                assert_eq!(
                    calls::read_sheet(&beyond, &mut years, &mut [], &mut []),
                    Err(Reason::Year)
                );
                assert_eq!(
                    calls::write_sheet(&[41_041], &[], &[], &mut out),
                    Err(Reason::Year)
                );
                assert_eq!((years, out), ([0, 41_040, 5], bytes));
            }

            /// W9: year 11 and two readings, their eight numbers; the old reader's 11; both forms of year 11; 17 after 11.
            #[test]
            fn sheet_of_two_readings() {
                let known = [22, 1, 1, 9, 60, 52, 2, 1, 0, 0, 3, 2, 0, 0];
                let unread = [0, 0, 0, 0, 0, 0, 0, 0, 0, 0, 110, 108, 0, 0];
                let year = [1, 0, 11, 0, 0, 0, 0, 0];
                let mut bytes = [&year[..], &[2, 0], &known, &unread].concat();
                let (mut years, mut readings) = ([5; 2], [6; 17]);
                let counts = calls::read_new(&bytes, &mut years, &mut [], &mut [], &mut readings);
                let three = SheetCounts {
                    years: 1,
                    months: 0,
                    days: 0,
                };
                assert_eq!(counts, Ok(NewCounts { three, readings: 2 }));
                assert_eq!(years, [11, 5]);
                let numbers = [
                    22, 1, 1, 9, 60, 52, 258, 515, 0, 0, 0, 0, 0, 0, 0, 27_758, 6,
                ];
                assert_eq!(readings, numbers);
                assert_eq!(
                    calls::read_new(&bytes, &mut years, &mut [], &mut [], &mut readings[..15]),
                    Err(Reason::LentTooShort)
                );
                assert_eq!(
                    calls::read_sheet(&bytes, &mut years, &mut [], &mut []),
                    Err(Reason::BytesAfter)
                );
                let mut out = [9; 11];
                assert_eq!(
                    calls::to_old(&bytes, &mut out),
                    Err(Reason::ReadingsPresent)
                );
                bytes.push(0);
                assert_eq!(calls::to_old(&bytes, &mut out), Err(Reason::BytesAfter));
                assert_eq!(out, [9; 11]);
                assert_eq!(calls::to_new(&year, &mut out), Ok(10));
                assert_eq!(out, [1, 0, 11, 0, 0, 0, 0, 0, 0, 0, 9]);
                let mut back = [9; 9];
                assert_eq!(calls::to_old(&out[..10], &mut back), Ok(8));
                assert_eq!(back, [1, 0, 11, 0, 0, 0, 0, 0, 9]);
                assert_eq!(calls::to_old(&year, &mut back), Err(Reason::SheetEnds));
            }

            /// W9: a reading is refused for 6, then 13, then 14; a leap byte of 2 is leap, of 3 is 14; 501 readings are 10.
            #[test]
            fn readings_that_come_back() {
                let read = |item: [u8; 14]| {
                    let bytes = [&[0, 0, 0, 0, 0, 0, 1, 0][..], &item].concat();
                    let mut readings = [6; 8];
                    let counts = calls::read_new(&bytes, &mut [], &mut [], &mut [], &mut readings);
                    assert_eq!(readings == [6; 8], counts.is_err());
                    counts.map(|counts| counts.readings)
                };
                assert_eq!(read([0, 0, 2, 0, 0, 0, 2, 1, 0, 0, 3, 2, 0, 0]), Ok(1));
                assert_eq!(
                    read([0, 0, 3, 0, 0, 0, 2, 1, 0, 0, 3, 2, 0, 0]),
                    Err(Reason::Field)
                );
                assert_eq!(
                    read([0, 13, 0, 0, 0, 0, 3, 2, 0, 0, 2, 1, 0, 0]),
                    Err(Reason::Window)
                );
                assert_eq!(
                    read([0, 13, 0, 0, 0, 0, 0, 0, 0, 0, 0, 0, 0, 1]),
                    Err(Reason::DayCount)
                );
                assert_eq!(
                    read([0, 0, 0, 0, 0, 0, 0, 0, 0, 1, 0, 0, 0, 0]),
                    Err(Reason::DayCount)
                );
                let many = [0, 0, 0, 0, 0, 0, 245, 1];
                let counts = calls::read_new(&many, &mut [], &mut [], &mut [], &mut []);
                assert_eq!(counts, Err(Reason::CountAbove));
            }

            #[test]
            fn empty_sheet() {
                let counts = calls::read_sheet(&[0; 6], &mut [], &mut [], &mut []);
                assert_eq!(
                    counts,
                    Ok(SheetCounts {
                        years: 0,
                        months: 0,
                        days: 0
                    })
                );
                assert_eq!(
                    calls::read_sheet(&[0; 5], &mut [], &mut [], &mut []),
                    Err(Reason::SheetEnds)
                );
                assert_eq!(
                    calls::read_sheet(&[0; 7], &mut [], &mut [], &mut []),
                    Err(Reason::BytesAfter)
                );
            }

            /// W3, by hand: the first three months from the origin, with the mid-terms ahead 30 14/32, 60 28/32 and 91 10/32; leap 6,
            /// month 32, before whose end no mid-term comes; and the month after it, which is the second of two big ones.
            #[test]
            fn the_clerk_steps() {
                let origin = Clerk {
                    month_count: 0,
                    first_day: 0,
                    mid_term_day: 30,
                    small_remainder: 0,
                    number: 11,
                    leap: false,
                    month_length: 29,
                    first_name: 1,
                    eclipse: false,
                    eclipse_remainder: 23,
                    mid_term_parts: 14,
                };
                let twelve = Clerk {
                    month_count: 1,
                    first_day: 29,
                    mid_term_day: 60,
                    small_remainder: 499,
                    number: 12,
                    month_length: 30,
                    first_name: 30,
                    eclipse_remainder: 46,
                    mid_term_parts: 28,
                    ..origin
                };
                let one = Clerk {
                    month_count: 2,
                    first_day: 59,
                    mid_term_day: 91,
                    small_remainder: 58,
                    number: 1,
                    first_name: 60,
                    eclipse_remainder: 69,
                    mid_term_parts: 10,
                    ..origin
                };
                assert_eq!(calls::clerk_start(1), Ok(origin));
                assert_eq!(calls::clerk_step(origin), Ok(twelve));
                assert_eq!(calls::clerk_step(twelve), Ok(one));
                assert_eq!(calls::clerk_walk(1, 2), Ok(one));
                let leap = Clerk {
                    month_count: 32,
                    first_day: 944,
                    mid_term_day: 974,
                    small_remainder: 928,
                    number: 6,
                    leap: true,
                    month_length: 30,
                    first_name: 45,
                    eclipse: false,
                    eclipse_remainder: 84,
                    mid_term_parts: 0,
                };
                let seven = Clerk {
                    month_count: 33,
                    first_day: 974,
                    mid_term_day: 1_004,
                    small_remainder: 487,
                    number: 7,
                    leap: false,
                    first_name: 15,
                    eclipse_remainder: 107,
                    mid_term_parts: 14,
                    ..leap
                };
                assert_eq!(calls::clerk_walk(1, 32), Ok(leap));
                assert_eq!(calls::clerk_step(leap), Ok(seven));
                assert_eq!(Ok(calls::clerk_show(leap)), calls::month_facts(32));
            }

            /// W3: the bu, 21 before 7, and the last month, past which no step goes.
            #[test]
            fn the_clerk_starts_and_ends() {
                let second = calls::clerk_start(2).unwrap();
                assert_eq!((second.month_count, second.first_day), (940, 27_759));
                assert_eq!((second.eclipse_remainder, second.first_name), (43, 40));
                assert_eq!(calls::clerk_walk(1, 940), Ok(second));
                for no_bu in [0, 541, (1 << 32) + 1, u64::MAX] {
                    assert_eq!(calls::clerk_start(no_bu), Err(Reason::Bu));
                    assert_eq!(calls::clerk_walk(no_bu, u64::MAX), Err(Reason::Bu));
                }
                let last = calls::clerk_walk(540, 939).unwrap();
                assert_eq!((last.month_count, last.first_day), (507_599, 14_989_830));
                assert_eq!((last.number, last.leap, last.eclipse), (10, true, true));
                assert_eq!(calls::clerk_walk(1, 507_599), Ok(last));
                assert_eq!(calls::clerk_step(last), Err(Reason::MonthCount));
                for steps in [940, 1 << 32, u64::MAX] {
                    assert_eq!(calls::clerk_walk(540, steps), Err(Reason::MonthCount));
                }
            }

            /// W3: a state that no start leads to, every bit of its numbers set, before the last month and not.
            #[test]
            fn the_clerk_of_any_numbers() {
                let full = Clerk {
                    month_count: u32::MAX,
                    first_day: u32::MAX,
                    mid_term_day: u32::MAX,
                    small_remainder: u16::MAX,
                    number: u8::MAX,
                    leap: true,
                    month_length: u8::MAX,
                    first_name: u8::MAX,
                    eclipse: true,
                    eclipse_remainder: u8::MAX,
                    mid_term_parts: u8::MAX,
                };
                assert_eq!(calls::clerk_step(full), Err(Reason::MonthCount));
                assert_eq!(calls::clerk_show(full).month, Month::Leap(255));
                let before = Clerk {
                    month_count: 507_598,
                    first_day: 14_989_829,
                    ..full
                };
                let after = Clerk {
                    month_count: 507_599,
                    first_day: 14_989_859,
                    small_remainder: 65_094,
                    month_length: 30,
                    first_name: 225,
                    eclipse: false,
                    eclipse_remainder: 143,
                    ..full
                };
                assert_eq!(calls::clerk_step(before), Ok(after));
            }

            #[test]
            fn printed_lines() {
                let mut out = [0; 700];
                let length = calls::print_year(11, &mut out).unwrap();
                assert_eq!(std::str::from_utf8(&out[..length]), Ok(super::YEAR_11));
                let length = calls::print_year(0, &mut out).unwrap();
                assert_eq!(std::str::from_utf8(&out[..length]), Ok(super::YEAR_0));
                assert_eq!(calls::print_year(41_041, &mut out), Err(Reason::Year));
                let length = calls::print_day(0, &mut out).unwrap();
                assert_eq!(&out[..length], b"DAY 0 0 11 - 1 1\n");
                let length = calls::print_month_line(134, &mut out).unwrap();
                assert_eq!(&out[..length], b"134 9 L 58 29 E\n");
                let length = calls::print_month(134, &mut out).unwrap();
                assert_eq!(&out[..length], b"MONTH 134 9 L 58 29 E\n");
                let length = calls::print_day(LAST_DAY, &mut out).unwrap();
                assert_eq!(&out[..length], b"DAY 14989859 41040 10 L 30 60\n");
            }

            /// Judges a text into a list of nines with room for it; its verdicts.
            fn judged(text: &[u8]) -> Vec<u8> {
                let mut out = [9; 30];
                let lines = calls::judge_text(text, &mut out).unwrap();
                assert!(out[lines..].iter().all(|&place| place == 9));
                out[..lines].to_vec()
            }

            /// W5: the lines that the paper prints for year 11 are right; month 129 is the second of two big months.
            #[test]
            fn a_printed_year_is_right() {
                let months = super::YEAR_11.split_once('\n').unwrap().1;
                assert_eq!(judged(months.as_bytes()), [0; 13]);
                assert_eq!(judged(b"129 5 - 30 30 E"), [0]);
            }

            /// W5: the first wrong field, from the paper's line of month 129.
            #[test]
            fn the_first_wrong_field() {
                for (line, field) in [
                    ("507600 5 - 30 30 E", 1),
                    ("999999999 5 - 30 30 E", 1),
                    ("129 6 - 30 30 E", 2),
                    ("129 0 - 30 30 E", 2),
                    ("129 5 L 30 30 E", 3),
                    ("129 5 - 31 30 E", 4),
                    ("129 5 - 30 29 E", 5),
                    ("129 5 - 30 30 -", 6),
                    ("129 5 - 31 30 -", 4),
                    ("129 6 L 31 29 -", 2),
                ] {
                    assert_eq!(judged(line.as_bytes()), [field], "{line}");
                }
            }

            /// W5: "six fields parted by single spaces, nothing before or after".
            #[test]
            fn unreadable_lines() {
                for line in [
                    "0129 5 - 30 30 E",
                    "129 05 - 30 30 E",
                    "1000000000 5 - 30 30 E",
                    "129 5 - 30 30",
                    "129 5 - 30 30 E E",
                    " 129 5 - 30 30 E",
                    "129 5 - 30 30 E ",
                    "129  5 - 30 30 E",
                    "129 5 - 30 30 E\r",
                    "129\t5 - 30 30 E",
                    "MONTH 129 5 - 30 30 E",
                    "129 5 l 30 30 E",
                    "129 5 E 30 30 E",
                    "129 5 - 30 30 L",
                    "129 5 - +30 30 E",
                    "129 5 - 30 30 \u{c9}",
                ] {
                    assert_eq!(judged(line.as_bytes()), [7], "{line}");
                }
            }

            /// W5: which lines a text has; 18, then 12, and nothing changed.
            #[test]
            fn lines_of_a_text() {
                assert_eq!(judged(b""), []);
                assert_eq!(judged(b"\n"), [7]);
                assert_eq!(judged(b"129 5 - 30 30 E\n"), [0]);
                assert_eq!(judged(b"\n129 5 - 30 30 E\n\n1"), [7, 0, 7, 7]);
                let mut out = [9; 2];
                let long = calls::judge_text(&[b'\n'; 65_537], &mut out);
                assert_eq!((long, out), (Err(Reason::TextTooLong), [9; 2]));
                let short = calls::judge_text(b"\n\n\n", &mut out);
                assert_eq!((short, out), (Err(Reason::LentTooShort), [9; 2]));
                let mut all = vec![9; 65_536];
                assert_eq!(calls::judge_text(&[b'\n'; 65_536], &mut all), Ok(65_536));
                assert_eq!(all, [7; 65_536]);
            }
        }
    };
}

/// The listing of civil year 11: months 125 to 135 as the paper prints them, 136 and 137 worked out by hand.
const YEAR_11: &str = "\
YEAR 11 NAME 27 MONTHS 13
125 1 - 32 29 -
126 2 - 1 30 -
127 3 - 31 29 -
128 4 - 60 30 -
129 5 - 30 30 E
130 6 - 60 29 -
131 7 - 29 30 -
132 8 - 59 29 -
133 9 - 28 30 -
134 9 L 58 29 E
135 10 - 27 30 -
136 11 - 57 29 -
137 12 - 26 30 -
";

/// The listing of civil year 0, which has months 11 and 12 alone.
const YEAR_0: &str = "\
YEAR 0 NAME 16 MONTHS 2
0 11 - 1 29 -
1 12 - 30 30 -
";

paper_of!(capi, oesterwrok);
paper_of!(independent, oesterwrok::independent);
