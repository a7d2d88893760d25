//! Document 01's list of lengths, as the program `lengths` prints it.

use reference::lengths::lengths;

/// The list of the paper, line by line, written out a second time.
#[rustfmt::skip]
const LIST: [(u32, &[usize]); 7] = [
    (2, &[42, 50, 51, 80, 84, 89, 123, 125, 150, 151, 160, 161, 162, 163, 164, 165, 176, 177, 212, 213, 215, 246]),
    (3, &[37, 67, 148, 149, 209, 211, 214, 240, 241, 242, 247]),
    (4, &[61, 144, 145]),
    (5, &[210]),
    (6, &[199, 243, 244, 245]),
    (11, &[224]),
    (13, &[198]),
];

fn printed() -> Vec<u32> {
    let text = lengths();
    assert!(text.ends_with('\n'));
    text.lines().map(|line| line.parse().expect("a bare number")).collect()
}

#[test]
fn first_half_is_the_list() {
    let mut expected = [0; 256];
    for (length, seconds) in LIST {
        for &second in seconds {
            expected[second] = length;
        }
    }
    let lines = printed();
    assert_eq!(lines.len(), 512);
    assert_eq!(lines[..256], expected);
    assert_eq!(lines[..256].iter().filter(|&&length| length != 0).count(), 43);
    assert_eq!(lines[..256].iter().sum::<u32>(), 142);
}

/// 208 has no line of its own in the first half: line 209 is 0.
#[test]
fn mode_setting_stands_in_the_second_half_alone() {
    let lines = printed();
    assert_eq!(lines[208], 0);
    assert_eq!(lines[256..260], [5, 4, 6, 3]);
    assert!(lines[260..].iter().all(|&length| length == 3));
    assert_eq!(lines[256..].iter().sum::<u32>(), 774);
}
