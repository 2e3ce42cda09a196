//! Filters in turn answer as the table of the model in `tests/rotating.py` says.

use fastbloom_c::RotatingFilter;

fn play(row: &str) {
    let told: Vec<_> = row.split(' ').collect();
    let [items, rate, byte, stream, replies, taken, wanted] = told[..] else {
        panic!("{row}");
    };
    let (rate, items) = (rate.parse().expect(row), items.parse().expect(row));
    let seed = u128::from_be_bytes([byte.parse().expect(row); 16]);
    let mut seen = RotatingFilter::seeded(rate, items, &seed).expect(row);
    for (item, reply) in stream.bytes().zip(replies.bytes()) {
        assert_eq!(seen.contains(&[item]), reply == b'+', "{row}");
        assert_eq!(seen.insert(&[item]), reply == b'+', "{row}");
    }
    let words = seen.older().iter().chain(seen.newer().iter());
    let digest = words.fold(1_469_598_103_934_665_603u64, |digest, word| {
        (digest ^ word).wrapping_mul(1_099_511_628_211)
    });
    assert_eq!(seen.taken().to_string(), taken, "{row}");
    assert_eq!(format!("{digest:016x}"), wanted, "{row}");
}

#[test]
fn they_answer_as_the_model() {
    let table = include_str!("../../rotating.txt");
    assert_eq!(table.lines().count(), 200);
    table.lines().for_each(play);
}
