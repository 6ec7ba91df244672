//! Code 1 with 8 bits and full range on both sides, and nothing else: every divisor is a literal, which the compiler turns into a
//! multiplication. It takes planes of one row after the other and refuses nothing. Its numbers have 64 bits; the yardstick does the same in
//! 32 and owes more.

/// Round(n / D), halves away from zero, for an even D.
fn rounded<const D: i64>(n: i64) -> i64 {
    if n < 0 {
        (n - D / 2) / D
    } else {
        (n + D / 2) / D
    }
}

fn sample(v: i64) -> u16 {
    v.clamp(0, 255) as u16
}

pub fn forward([r, g, b]: [&[u16]; 3], y: &mut [u16], cb: &mut [u16], cr: &mut [u16]) {
    for (((&r, &g), &b), ((y, cb), cr)) in r.iter().zip(g).zip(b).zip(y.iter_mut().zip(cb).zip(cr)) {
        let (r, g, b) = (i64::from(r), i64::from(g), i64::from(b));
        let light = 2126 * r + 7152 * g + 722 * b;
        *y = sample(rounded::<10_000>(light));
        *cb = sample(rounded::<18_556>(10_000 * b - light) + 128);
        *cr = sample(rounded::<15_748>(10_000 * r - light) + 128);
    }
}

pub fn reverse([y, cb, cr]: [&[u16]; 3], r: &mut [u16], g: &mut [u16], b: &mut [u16]) {
    for (((&y, &cb), &cr), ((r, g), b)) in y.iter().zip(cb).zip(cr).zip(r.iter_mut().zip(g).zip(b)) {
        let (y, cb, cr) = (i64::from(y), i64::from(cb) - 128, i64::from(cr) - 128);
        *r = sample(rounded::<10_000>(10_000 * y + 15_748 * cr));
        *g = sample(rounded::<71_520_000>(71_520_000 * y - 722 * 18_556 * cb - 2126 * 15_748 * cr));
        *b = sample(rounded::<10_000>(10_000 * y + 18_556 * cb));
    }
}
