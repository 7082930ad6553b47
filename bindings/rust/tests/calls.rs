//! Every call against the archive: done and refused, the corners that the rules name, and lent slices kept after a refusal.
use lc3_sns::{check_factor, decode, encode, interpolate, pack, shape, unpack, FactorRefusal, Fields, Frame, Packed, Refusal};

fn no<T>(number: u32, place: u32) -> Result<T, Refusal> {
    Err(Refusal { number, place })
}

/// The next f32 away from zero.
fn next(x: f32) -> f32 {
    f32::from_bits(x.to_bits() + 1)
}

/// The four pairs and their sizes.
const PAIRS: [(u32, u32, u32); 4] = [(10, 10, 2390004), (6, 1, 6), (16, 8, 15158272), (16, 6, 774912)];

fn unpacked(dimension: u32, pulses: u32, sign: u32, index: u32) -> Result<Vec<i32>, Refusal> {
    let mut vector = vec![77; dimension as usize];
    match unpack(dimension, pulses, Packed { sign, index }, &mut vector) {
        Ok(()) => Ok(vector),
        Err(refusal) => {
            assert!(vector.iter().all(|&x| x == 77), "a refusal changes nothing");
            Err(refusal)
        }
    }
}

/// Zeros, but for these values at these places.
fn sparse(dimension: usize, at: &[(usize, i32)]) -> Vec<i32> {
    let mut vector = vec![0; dimension];
    for &(place, value) in at {
        vector[place] = value;
    }
    vector
}

#[test]
fn one_factor() {
    for x in [0.0, -0.0, 1.5, 64.0, -64.0, f32::MIN_POSITIVE, f32::from_bits(1)] {
        assert_eq!(check_factor(x).map(f32::to_bits), Ok(x.to_bits()));
    }
    for x in [next(64.0), next(-64.0), f32::MAX, f32::MIN] {
        assert_eq!(check_factor(x), Err(FactorRefusal::TooFar(x)));
    }
    for x in [f32::NAN, f32::INFINITY, f32::NEG_INFINITY] {
        assert_eq!(check_factor(x), Err(FactorRefusal::NotFinite));
    }
}

#[test]
fn unpack_corners() {
    assert_eq!(unpacked(6, 1, 0, 0), Ok(sparse(6, &[(0, 1)])));
    assert_eq!(unpacked(6, 1, 1, 5), Ok(sparse(6, &[(5, -1)])));
    assert_eq!(unpacked(10, 10, 0, 0), Ok(sparse(10, &[(0, 10)])));
    assert_eq!(unpacked(10, 10, 0, 1), Ok(sparse(10, &[(0, 9), (1, 1)])));
    assert_eq!(unpacked(10, 10, 0, 2), Ok(sparse(10, &[(0, 9), (1, -1)])));
    assert_eq!(unpacked(10, 10, 0, 3), Ok(sparse(10, &[(0, 9), (2, 1)])));
    assert_eq!(unpacked(10, 10, 0, 2390003), Ok(sparse(10, &[(9, 10)])));
    assert_eq!(unpacked(10, 10, 1, 1), Ok(sparse(10, &[(0, -9), (1, 1)])));
    assert_eq!(unpacked(16, 8, 0, 15158271), Ok(sparse(16, &[(15, 8)])));
    assert_eq!(unpacked(16, 6, 0, 774911), Ok(sparse(16, &[(15, 6)])));
}

#[test]
fn unpack_refusals() {
    for (dimension, pulses, size) in PAIRS {
        assert_eq!(unpacked(dimension, pulses, 0, size), no(5, 0));
        assert_eq!(unpacked(dimension, pulses, 1, u32::MAX), no(5, 0));
        assert_eq!(unpacked(dimension, pulses, 2, size), no(4, 0));
        let mut longer = vec![77; dimension as usize + 1];
        assert_eq!(unpack(dimension, pulses, Packed { sign: 2, index: size }, &mut longer), no(9, 0));
        assert!(longer.iter().all(|&x| x == 77));
    }
    assert_eq!(unpacked(10, 1, 2, 0), no(10, 0));
    assert_eq!(unpack(6, 10, Packed { sign: 0, index: 0 }, &mut []), no(10, 0));
}

#[test]
fn pack_refusals() {
    assert_eq!(pack(6, 1, &[0; 6]), no(6, 0));
    assert_eq!(pack(16, 8, &[0; 16]), no(6, 0));
    assert_eq!(pack(10, 10, &sparse(10, &[(3, i32::MIN)])), no(6, 0));
    assert_eq!(pack(10, 10, &[i32::MAX; 10]), no(6, 0));
    assert_eq!(pack(10, 10, &[1; 9]), no(9, 0));
    assert_eq!(pack(10, 10, &[]), no(9, 0));
    assert_eq!(pack(16, 7, &[1; 16]), no(10, 0));
}

#[test]
fn pack_undoes_unpack() {
    for (dimension, pulses, size) in PAIRS {
        let step = 1 + size / 5000;
        for index in (0..size).step_by(step as usize).chain([size - 1]) {
            for sign in [0, 1] {
                let vector = unpacked(dimension, pulses, sign, index).unwrap();
                assert_eq!(vector.iter().map(|x| x.unsigned_abs()).sum::<u32>(), pulses);
                assert_eq!(pack(dimension, pulses, &vector), Ok(Packed { sign, index }));
            }
        }
    }
}

#[test]
fn decode_done() {
    for shape in 0..4 {
        for sign_a in [0, 1] {
            let fields = Fields { low_row: 31, high_row: 17, shape, gain: 1, sign_a, sign_b: 1, index_a: 774911, index_b: 5 };
            let factors = decode(&fields).unwrap();
            assert!(factors.iter().all(|x| x.abs() <= 64.0));
            // shapes 1 to 3 don't look at B's sign and index
            let other = decode(&Fields { sign_b: 9, index_b: 99, ..fields });
            assert_eq!(other, if shape == 0 { no(4, 1) } else { Ok(factors) });
        }
    }
}

#[test]
fn decode_refusals() {
    let good = Fields::default();
    let worst = Fields { low_row: 32, high_row: 32, shape: 4, gain: 8, sign_a: 2, sign_b: 2, index_a: u32::MAX, index_b: 6 };
    assert_eq!(decode(&worst), no(1, 0));
    assert_eq!(decode(&Fields { low_row: 31, ..worst }), no(1, 1));
    assert_eq!(decode(&Fields { low_row: 31, high_row: 31, ..worst }), no(2, 0));
    for (shape, gain, size) in [(0, 1, 2390004), (1, 3, 2390004), (2, 3, 15158272), (3, 7, 774912)] {
        let fields = Fields { shape, gain, ..good };
        assert_eq!(decode(&Fields { gain: gain + 1, sign_a: 2, ..fields }), no(3, 0));
        assert_eq!(decode(&Fields { sign_a: 2, index_a: size, ..fields }), no(4, 0));
        assert_eq!(decode(&Fields { index_a: size, ..fields }), no(5, 0));
        assert!(decode(&Fields { index_a: size - 1, ..fields }).is_ok());
    }
    assert_eq!(decode(&Fields { sign_b: 2, index_a: u32::MAX, ..good }), no(4, 1));
    assert_eq!(decode(&Fields { index_b: 6, ..good }), no(5, 1));
}

#[test]
fn interpolate_done() {
    let mut factors = [8.0; 16];
    factors[0] = 0.0;
    let mut bands = [-1.0; 64];
    assert_eq!(interpolate(&factors, &mut bands), Ok(()));
    assert_eq!(bands[..8], [0.0, 0.0, 1.0, 3.0, 5.0, 7.0, 8.0, 8.0]);
    assert!(bands[8..].iter().all(|&x| x == 8.0));
    let mut fewer = [-1.0; 60];
    assert_eq!(interpolate(&factors, &mut fewer), Ok(()));
    assert_eq!(fewer[..5], [0.0, 2.0, 6.0, 8.0, 8.0]);
    let mut last = [0.0; 16];
    last[15] = 8.0;
    assert_eq!(interpolate(&last, &mut bands), Ok(()));
    assert_eq!(bands[62..], [9.0, 11.0]);
}

#[test]
fn interpolate_refusals() {
    let mut bands = [5.0f32; 64];
    let mut far = [0.0; 16];
    far[3] = next(-64.0);
    far[9] = f32::NAN;
    assert_eq!(interpolate(&far, &mut bands), no(8, 3));
    far[2] = f32::INFINITY;
    assert_eq!(interpolate(&far, &mut bands), no(7, 2));
    assert_eq!(interpolate(&far[..15], &mut bands), no(9, 0));
    assert_eq!(interpolate(&far[..15], &mut bands[..63]), no(11, 0));
    assert!(bands.iter().all(|&x| x == 5.0));
}

/// The last band limits, by rate.
fn last_limit(rate: u32, frame: Frame) -> usize {
    (rate as usize + 1) * if frame == Frame::TenMs { 80 } else { 60 }
}

#[test]
fn shape_done() {
    for frame in [Frame::TenMs, Frame::SevenPointFiveMs] {
        for rate in 0..5 {
            let bands = if rate == 0 && frame == Frame::SevenPointFiveMs { 60 } else { 64 };
            let end = last_limit(rate, frame);
            let gains: Vec<f32> = (0..bands).map(|b| 2.0 + b as f32).collect();
            // a line past the last limit is not looked at
            let mut lines = vec![3.0; end + 2];
            lines[end] = f32::NAN;
            assert_eq!(shape(rate, frame, &gains, &mut lines), Ok(()));
            assert!(lines[end].is_nan() && lines[end + 1] == 3.0);
            assert_eq!((lines[0], lines[end - 1]), (6.0, 3.0 * (1.0 + bands as f32)));
            assert!(lines[..end].windows(2).all(|w| w[0] <= w[1] && w[1] - w[0] <= 3.0));
            // a product may be infinite
            let mut large = vec![f32::MAX; end];
            assert_eq!(shape(rate, frame, &gains, &mut large), Ok(()));
            assert!(large.iter().all(|&x| x == f32::INFINITY));
        }
    }
}

#[test]
fn shape_refusals() {
    let mut lines = [1.0f32; 80];
    let mut gains = [1.0f32; 64];
    assert_eq!(shape(5, Frame::TenMs, &gains[..61], &mut lines), no(10, 0));
    assert_eq!(shape(0, Frame::TenMs, &gains[..60], &mut lines), no(11, 0));
    assert_eq!(shape(0, Frame::SevenPointFiveMs, &gains, &mut lines), no(11, 0));
    gains[63] = f32::INFINITY;
    assert_eq!(shape(0, Frame::TenMs, &gains, &mut lines[..79]), no(9, 0));
    lines[0] = f32::NAN;
    assert_eq!(shape(0, Frame::TenMs, &gains, &mut lines), no(12, 63));
    gains[63] = 1.0;
    assert_eq!(shape(0, Frame::TenMs, &gains, &mut lines), no(12, 0));
    lines[0] = 1.0;
    lines[79] = f32::NEG_INFINITY;
    assert_eq!(shape(0, Frame::TenMs, &gains, &mut lines), no(12, 79));
    assert!(lines[..79].iter().all(|&x| x == 1.0) && lines[79] == f32::NEG_INFINITY);
}

#[test]
fn encode_done() {
    let e = encode(&[0.0; 16]).unwrap();
    assert!(e.joint_index <= if e.fields.shape < 2 { 33460055 } else { 16708095 });
    // the answer depends on the factors alone
    let x: Vec<f32> = (0..16).map(|n| (n as f32 * 0.37).sin() * 3.0).collect();
    let first = encode(&x).unwrap();
    encode(&[64.0; 16]).unwrap();
    assert_eq!(encode(&x).unwrap(), first);
    // decoded again the factors are the encoder's, bit for bit, and within 11
    let again = decode(&first.fields).unwrap();
    assert_eq!(again.map(f32::to_bits), first.factors.map(f32::to_bits));
    assert!(again.iter().all(|x| x.abs() <= 11.0));
}

#[test]
fn encode_refusals() {
    let mut x = [0.0f32; 16];
    assert_eq!(encode(&x[..15]), no(9, 0));
    x[3] = next(64.0);
    x[7] = f32::NAN;
    assert_eq!(encode(&x), no(8, 3));
    x[3] = -64.0;
    assert_eq!(encode(&x), no(7, 7));
    x[7] = 64.0;
    assert!(encode(&x).is_ok());
}
