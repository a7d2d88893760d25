//! Document 02, P11: the dots of mode 3. A line goes on from dot to dot: what is
//! left over of the shorter way is carried along, and nothing is divided.

const ROW: usize = 60;

pub type Dots = [u8; 3840];

/// A two-byte number, the high byte first.
fn number(p: &[u8], at: usize) -> usize {
    usize::from(u16::from_be_bytes([p[at], p[at + 1]]))
}

/// The first parameter of 199 that does not fit, 0 if all do.
pub fn misfit_of_dot(p: &[u8]) -> u8 {
    match (p[0], p[1]) {
        (2.., _) => 1,
        (_, 64..) => 2,
        _ if number(p, 2) > 479 => 4,
        _ => 0,
    }
}

/// The same of 198.
pub fn misfit_of_line(p: &[u8]) -> u8 {
    let limits = [(0, 479), (2, 63), (4, 479), (6, 63)];
    match limits.iter().find(|&&(at, most)| number(p, at) > most) {
        Some((at, _)) => *at as u8 + 2,
        None if matches!(p[10], 1..=3) => 0,
        None => 11,
    }
}

pub fn set(dots: &mut Dots, p: &[u8]) {
    let h = number(p, 2);
    let (byte, weight) = (&mut dots[ROW * usize::from(p[1]) + h / 8], 128 >> (h % 8));
    if p[0] == 1 {
        *byte |= weight;
    } else {
        *byte &= !weight;
    }
}

pub fn draw(dots: &mut Dots, p: &[u8]) {
    match p[10] {
        1 => walk(dots, p, |byte, weight| byte & !weight),
        2 => walk(dots, p, |byte, weight| byte | weight),
        _ => walk(dots, p, |byte, weight| byte ^ weight),
    }
}

/// One dot less or more, or the same.
fn side(from: usize, to: usize) -> usize {
    match to.cmp(&from) {
        std::cmp::Ordering::Less => usize::MAX,
        std::cmp::Ordering::Equal => 0,
        std::cmp::Ordering::Greater => 1,
    }
}

fn walk(dots: &mut Dots, p: &[u8], act: impl Fn(u8, u8) -> u8) {
    let (mut h, mut v) = (number(p, 0), number(p, 2));
    let (end_h, end_v) = (number(p, 4), number(p, 6));
    let (right, down) = (side(h, end_h), side(v, end_v));
    let (across, along) = (h.abs_diff(end_h), v.abs_diff(end_v));
    let (n, d) = (across.max(along), across.min(along));
    let lying = across >= along;
    let mut mask = u16::from_be_bytes([p[8], p[9]]);
    let mut left = n;
    for _ in 0..=n {
        if mask >= 0x8000 {
            let byte = &mut dots[ROW * v + h / 8];
            *byte = act(*byte, 128 >> (h % 8));
        }
        mask = mask.rotate_left(1);
        left += 2 * d;
        let over = left >= 2 * n;
        left -= if over { 2 * n } else { 0 };
        if lying || over {
            h = h.wrapping_add(right);
        }
        if !lying || over {
            v = v.wrapping_add(down);
        }
    }
}
