//! Numbers of the image: "in groups of seven bits, lowest group first, top bit set
//! where another follows, shortest form only".

/// Groups that a number may have; more are broken like any other bad number.
pub const GROUPS: usize = 5;

/// Why no number could be read: it is cut short, not in shortest form, or too long.
#[derive(Clone, Copy, Debug, PartialEq, Eq)]
pub struct BadNumber;

/// The number at the front of `bytes`, and how many bytes it takes.
pub fn read(bytes: &[u8]) -> Result<(u64, usize), BadNumber> {
    read_groups(bytes, GROUPS)
}

/// "the reader of a number calls itself once a group"
fn read_groups(bytes: &[u8], left: usize) -> Result<(u64, usize), BadNumber> {
    let Some((&first, rest)) = bytes.split_first() else {
        return Err(BadNumber);
    };
    if left == 0 {
        return Err(BadNumber);
    }
    let group = u64::from(first & 127);
    if first < 128 {
        return Ok((group, 1));
    }
    let (higher, length) = read_groups(rest, left - 1)?;
    // The groups that follow are there for a value other than 0 only.
    if higher == 0 {
        return Err(BadNumber);
    }
    Ok((group + 128 * higher, length + 1))
}

/// Appends a number.
pub fn write(value: u64, out: &mut Vec<u8>) {
    let mut rest = value;
    while rest >= 128 {
        out.push(128 | (rest % 128) as u8);
        rest /= 128;
    }
    out.push(rest as u8);
}

/// "A signed z is written as 2z if z >= 0, else -2z - 1."
pub fn from_signed(z: i64) -> u64 {
    if z >= 0 {
        (2 * z) as u64
    } else {
        (-2 * z - 1) as u64
    }
}

/// The signed number written as `n`.
pub fn to_signed(n: u64) -> i64 {
    if n & 1 == 0 {
        (n / 2) as i64
    } else {
        -((n / 2) as i64) - 1
    }
}

#[cfg(test)]
mod tests {
    use super::*;

    fn written(value: u64) -> Vec<u8> {
        let mut out = Vec::new();
        write(value, &mut out);
        out
    }

    #[test]
    fn groups() {
        assert_eq!(written(0), [0]);
        assert_eq!(written(127), [127]);
        assert_eq!(written(128), [0x80, 0x01]);
        assert_eq!(written(16_383), [0xFF, 0x7F]);
        assert_eq!(written(16_384), [0x80, 0x80, 0x01]);
        assert_eq!(written(u64::from(u32::MAX)), [255, 255, 255, 255, 15]);
    }

    #[test]
    fn bad_numbers() {
        let bad: [&[u8]; 8] = [
            &[],
            &[0x80],
            &[0x80, 0x00],
            &[0x81, 0x80, 0x00],
            &[0xFF, 0x00],
            &[255, 255, 255, 255],
            &[255, 255, 255, 255, 255, 1],
            &[128, 128, 128, 128, 128, 0],
        ];
        for bytes in bad {
            assert_eq!(read(bytes), Err(BadNumber), "{bytes:?}");
        }
        assert_eq!(
            read(&[255, 255, 255, 255, 127, 9]),
            Ok(((1 << 35) - 1, 5)),
            "five groups hold 35 bits"
        );
    }

    #[test]
    fn round_trip() {
        for shift in 0..35 {
            for value in [1u64 << shift, (1 << shift) - 1, (1 << shift) + 1] {
                let bytes = written(value);
                assert_eq!(read(&bytes), Ok((value, bytes.len())));
            }
        }
        for z in [
            0,
            -1,
            1,
            -2,
            2,
            -64,
            64,
            i64::from(i32::MIN),
            i64::from(i32::MAX),
        ] {
            assert_eq!(to_signed(from_signed(z)), z);
        }
        assert_eq!(from_signed(i64::from(i32::MIN)), u64::from(u32::MAX));
        assert_eq!([0, -1, 1, -2, 2].map(from_signed), [0, 1, 2, 3, 4]);
    }
}
