//! The binomials that are printed for rows 0 to 60.

use second::values::triangle;

fn rows() -> Vec<Vec<u64>> {
    let text = triangle();
    let lines = text.lines().enumerate();
    lines.map(|(n, line)| numbers(n, line)).collect()
}

fn numbers(n: usize, line: &str) -> Vec<u64> {
    let (name, numbers) = line.split_once(": ").expect("a row has its number");
    assert_eq!(name, n.to_string());
    let numbers = numbers.split(' ');
    numbers.map(|x| x.parse().expect("a number")).collect()
}

#[test]
fn there_are_1891_numbers_in_61_rows() {
    let rows = rows();
    assert_eq!(rows.len(), 61);
    assert!((0..61).all(|n| rows[n].len() == n + 1));
    assert_eq!(rows.concat().len(), 1891);
    assert_eq!(rows.concat().iter().sum::<u64>(), (1 << 61) - 1);
}

#[test]
fn each_number_is_the_sum_of_the_two_above() {
    let rows = rows();
    for n in 0..61 {
        assert_eq!((rows[n][0], rows[n][n]), (1, 1));
        for k in 1..n {
            assert_eq!(
                rows[n][k],
                rows[n - 1][k - 1] + rows[n - 1][k],
                "C({n}, {k})"
            );
        }
    }
}

#[test]
fn the_agreed_values_stand_at_their_places() {
    let numbers = rows().concat();
    let agreed = [
        (0, 1),
        (17, 10),
        (1799, 59_132_290_782_430_712),
        (1831, 60),
        (1860, 118_264_581_564_861_424),
    ];
    for (place, number) in agreed {
        assert_eq!(numbers[place], number, "at {place}");
    }
}
