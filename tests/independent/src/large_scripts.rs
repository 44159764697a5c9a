//! Scripts, that is jobs up to their `3F`, for measuring `infer`.

/// J1 of document 01 up to its `3F`.
const J1: [u8; 56] = [
    0x01, 1, 0x02, 0, 0x03, 2, 0x04, 0x16, 2, 2, 0x04, 0x15, 2, 0x01, 2, 0x03, 0, 0x05, 1, // vocabulary
    0x20, 0x23, 1, 0x22, 0, 0x26, 0x27, 0x20, 0x23, 2, 0x21, 0x26, 0x27, 0x2F, // templates
    0x31, 0, 1, 1, 1, 0x31, 1, 2, 2, 2, 0x35, 0, 0, 0, 1, 3, 3, 0x37, 0, 4, 4, 0x38, 0x3F, // program
];

pub fn all() -> [Vec<u8>; 3] {
    [J1.to_vec(), largest(), many_rounds()]
}

/// One rule without clauses, and 31 templates that have all gaps.
fn full_templates() -> Vec<u8> {
    let mut template = vec![0x20, 0x23, 1];
    template.extend((0..8).flat_map(|gap| [0x25, gap, gap]));
    template.extend((0..8).flat_map(|gap| [0x22, gap]));
    template.extend([0x26, 0x27]);
    [&[0x01, 1, 0x05, 1], &template.repeat(31)[..], &[0x2F]].concat()
}

/// The largest proposal. Each point is followed by the next two, and no two points in a row change the same variable:
/// what one changes gets past it unchanged too, and the plugs carry it into every variable. So each variable has all
/// roots, origins and edges at every point. A template that is loaded counts twice, as an origin and as a root; with a
/// plug for each gap and two copies that name the string variables there is room for 22. Strings at attribute gaps
/// would take more edges away than they bring.
pub fn largest() -> Vec<u8> {
    let mut bytes = full_templates();
    let mut loaded = 0;
    for point in 0..32 {
        let to = point % 4;
        match point {
            8 => bytes.extend([0x32, 0, 1]),
            24 => bytes.extend([0x32, 2, 3]),
            _ if to == point / 4 % 4 => bytes.extend([0x35, to, (to + 1) % 4, point / 4, (to + 2) % 4]),
            _ => {
                loaded += 1;
                bytes.extend([0x31, to, loaded]);
            }
        }
        bytes.extend([(point + 1) % 32, (point + 2) % 32]);
    }
    bytes.push(0x3F);
    bytes
}

/// Points 10 to 31 are a loop against the order of points, and points 0 to 9 load what goes round in it. Its last four
/// points carry each variable into the next one, every time just after the plug that would carry it further: that
/// takes another turn.
pub fn many_rounds() -> Vec<u8> {
    let mut bytes = full_templates();
    for point in 0..10 {
        match point {
            8 => bytes.extend([0x34, 0]),
            9 => bytes.extend([0x33, 1, 9]),
            _ => bytes.extend([0x31, point % 4, 4 * point + 1]),
        }
        bytes.extend([31 - point, 31]);
    }
    for point in 10..32 {
        let gap = point % 8;
        let before = if point == 10 { 31 } else { point - 1 };
        match point {
            // Variable 0 into 1, 1 into 2, 2 into 3, 3 into 0.
            10..=13 => bytes.extend([0x35, (point - 9) % 4, (point - 9) % 4, gap, point - 10]),
            _ if point % 3 == 0 => bytes.extend([0x36, point % 4, point % 4, gap, point % 2]),
            _ => bytes.extend([0x35, point % 4, point % 4, gap, point % 4]),
        }
        bytes.extend([before, point]);
    }
    bytes.push(0x3F);
    bytes
}
