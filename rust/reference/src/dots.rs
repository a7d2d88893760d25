//! Document 02, P11: the dot store of mode 3, "3,840 bytes, 60 a row, leftmost
//! dot in the highest bit".

/// Bytes of a row of dots.
pub const ROW: usize = 60;
/// "vertical 0 to 63, horizontal 0 to 479"
pub const LAST_VERTICAL: usize = 63;
pub const LAST_HORIZONTAL: usize = 479;

#[derive(Clone, Copy, Debug, PartialEq, Eq)]
pub struct Dot {
    pub horizontal: usize,
    pub vertical: usize,
}

/// What becomes of a dot that is acted on.
#[derive(Clone, Copy, Debug, PartialEq, Eq)]
pub enum Function {
    Off,
    On,
    /// "the complements of dots"
    Invert,
}

pub fn is_on(dots: &[u8], dot: Dot) -> bool {
    dots[ROW * dot.vertical + dot.horizontal / 8] & weight(dot) != 0
}

/// Of the dot's bit within its byte.
fn weight(dot: Dot) -> u8 {
    128 >> (dot.horizontal % 8)
}

fn act(dots: &mut [u8], dot: Dot, function: Function) {
    let on = match function {
        Function::Off => false,
        Function::On => true,
        Function::Invert => !is_on(dots, dot),
    };
    let byte = &mut dots[ROW * dot.vertical + dot.horizontal / 8];
    *byte = if on { *byte | weight(dot) } else { *byte & !weight(dot) };
}

/// 199's parameters, all in their ranges: document 000's "Function code (1:
/// PSET, 0: PRESET)", "Vertical dot position", "High byte of horizontal dot
/// position", "Low byte".
pub fn set(dots: &mut [u8], p: &[u8]) {
    let function = if p[0] == 1 { Function::On } else { Function::Off };
    act(dots, Dot { horizontal: number(p, 2), vertical: usize::from(p[1]) }, function);
}

/// 198's parameters, all in their ranges: the horizontal and vertical starting
/// position, the horizontal and vertical ending position, each "High byte" and
/// "Low byte"; two bytes of mask pattern; the function, of which 1 re-sets, 2 sets
/// and 3 complements.
pub fn draw(dots: &mut [u8], p: &[u8]) {
    let start = Dot { horizontal: number(p, 0), vertical: number(p, 2) };
    let end = Dot { horizontal: number(p, 4), vertical: number(p, 6) };
    let function = match p[10] {
        1 => Function::Off,
        2 => Function::On,
        _ => Function::Invert,
    };
    for (k, dot) in line(start, end).enumerate() {
        if acts([p[8], p[9]], k) {
            act(dots, dot, function);
        }
    }
}

/// A two-byte number, its high byte first.
pub fn number(p: &[u8], at: usize) -> usize {
    256 * usize::from(p[at]) + usize::from(p[at + 1])
}

/// "Mask bit k mod 16, first byte's highest bit first, says whether it acts."
fn acts(mask: [u8; 2], k: usize) -> bool {
    let bit = k % 16;
    mask[bit / 8] & (128 >> (bit % 8)) != 0
}

/// "With N the longer distance (horizontal if equal) and d the shorter, dot k from
/// 0 to N lies k along the longer axis and floor((2kd+N)/(2N)) along the other,
/// towards the end; N=0 is one dot." Each dot is worked out by itself.
pub fn line(start: Dot, end: Dot) -> impl Iterator<Item = Dot> {
    let across = start.horizontal.abs_diff(end.horizontal);
    let along = start.vertical.abs_diff(end.vertical);
    let lying = across >= along;
    let (n, d) = if lying { (across, along) } else { (along, across) };
    (0..=n).map(move |k| {
        let other = if n == 0 { 0 } else { (2 * k * d + n) / (2 * n) };
        let (right, down) = if lying { (k, other) } else { (other, k) };
        Dot {
            horizontal: towards(start.horizontal, end.horizontal, right),
            vertical: towards(start.vertical, end.vertical, down),
        }
    })
}

fn towards(start: usize, end: usize, steps: usize) -> usize {
    if start <= end {
        start + steps
    } else {
        start - steps
    }
}
