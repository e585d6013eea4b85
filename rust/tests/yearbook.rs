//! The yearbook's figures that the request names, asked of capi and of the independent implementation.

macro_rules! yearbook_of {
    ($side:ident, $calls:path) => {
        mod $side {
            use oesterwrok::{Figures, Reason};
            use $calls as calls;

            /// The four numbers and both arrays of a range that has figures.
            fn whole(first: u64, last: u64) -> ([u32; 4], [u32; 12], [u32; 60]) {
                let (mut leaps, mut names) = ([7; 12], [7; 60]);
                let told = calls::figures(first, last, &mut leaps, &mut names);
                let Figures {
                    big,
                    small,
                    pairs,
                    eclipses,
                } = told.expect("a good range");
                ([big, small, pairs, eclipses], leaps, names)
            }

            #[test]
            fn year_8() {
                let (four, leaps, names) = whole(8, 8);
                assert_eq!(four, [7, 6, 1, 3]);
                assert_eq!(leaps, [0, 0, 0, 0, 0, 0, 0, 0, 0, 0, 0, 1]);
                // 384 days from day 2598, whose name is 19, on: six of each name, and seven of those from 19 to 42.
                let seven = |name: usize| (19..=42).contains(&name);
                for name in 1..=60 {
                    assert_eq!(names[name - 1], 6 + u32::from(seven(name)), "name {name}");
                }
            }

            #[test]
            fn year_11() {
                let (four, leaps, _) = whole(11, 11);
                assert_eq!(four, [7, 6, 1, 2]);
                assert_eq!(leaps, [0, 0, 0, 0, 0, 0, 0, 0, 1, 0, 0, 0]);
            }

            #[test]
            fn all_years() {
                let (four, leaps, names) = whole(1, 41_039);
                assert_eq!(four, [269_453, 238_134, 31_319, 86_478]);
                let by_number = [
                    1_620, 540, 1_620, 1_080, 1_620, 1_080, 1_080, 1_620, 1_080, 1_619, 540, 1_620,
                ];
                assert_eq!(leaps, by_number);
                assert_eq!(names.iter().sum::<u32>(), 30 * 269_453 + 29 * 238_134);
            }

            /// 004's years: 196 eclipses.
            #[test]
            fn years_9368_to_9460() {
                assert_eq!(whole(9_368, 9_460).0[3], 196);
            }

            /// The pair that the last month of year 47 starts counts with year 47, and once in both years.
            #[test]
            fn a_pair_across_the_join() {
                let pairs = |first, last| whole(first, last).0[2];
                assert_eq!((pairs(47, 47), pairs(48, 48), pairs(47, 48)), (1, 0, 1));
            }

            #[test]
            fn refusals() {
                let refused = |first, last| {
                    let (mut leaps, mut names) = ([7; 12], [9; 60]);
                    let told = calls::figures(first, last, &mut leaps, &mut names);
                    assert_eq!((leaps, names), ([7; 12], [9; 60]));
                    told.expect_err("a range that comes back")
                };
                for outside in [
                    0,
                    41_040,
                    65_537,
                    u64::from(u32::MAX),
                    (1 << 32) + 8,
                    u64::MAX,
                ] {
                    assert_eq!(refused(outside, 8), Reason::Year);
                    assert_eq!(refused(8, outside), Reason::Year);
                    assert_eq!(refused(outside, outside), Reason::Year);
                }
                assert_eq!(refused(9, 8), Reason::Window);
                assert_eq!(refused(41_039, 1), Reason::Window);
            }
        }
    };
}

yearbook_of!(capi, oesterwrok);
yearbook_of!(independent, oesterwrok::independent);
