//! SHA-256 as FIPS 180-4 gives it, so that no crate is needed for the one digest.

/// The first 32 bits of the fractional parts of some root of the first primes, which is how the standard defines its constants.
fn constants(count: usize, root: fn(f64) -> f64) -> Vec<u32> {
    (2u32..)
        .filter(|n| (2..*n).take_while(|d| d * d <= *n).all(|d| n % d != 0))
        .take(count)
        .map(|prime| (root(f64::from(prime)).fract() * 4_294_967_296.0) as u32)
        .collect()
}

/// The message, a 1 bit, zeros, and the length in bits, to whole blocks of 64 bytes.
fn padded(message: &[u8]) -> Vec<u8> {
    let mut bytes = message.to_vec();
    bytes.push(0x80);
    while bytes.len() % 64 != 56 {
        bytes.push(0);
    }
    bytes.extend_from_slice(&(message.len() as u64 * 8).to_be_bytes());
    bytes
}

fn schedule(block: &[u8]) -> Vec<u32> {
    let mut w: Vec<u32> = block.chunks(4).map(|b| u32::from_be_bytes([b[0], b[1], b[2], b[3]])).collect();
    for t in 16..64 {
        let s0 = w[t - 15].rotate_right(7) ^ w[t - 15].rotate_right(18) ^ (w[t - 15] >> 3);
        let s1 = w[t - 2].rotate_right(17) ^ w[t - 2].rotate_right(19) ^ (w[t - 2] >> 10);
        w.push(w[t - 16].wrapping_add(s0).wrapping_add(w[t - 7]).wrapping_add(s1));
    }
    w
}

fn compress(state: &mut [u32], k: &[u32], block: &[u8]) {
    let mut v = state.to_vec();
    for (w, k) in schedule(block).iter().zip(k) {
        let s1 = v[4].rotate_right(6) ^ v[4].rotate_right(11) ^ v[4].rotate_right(25);
        let choice = (v[4] & v[5]) ^ (!v[4] & v[6]);
        let t1 = v[7].wrapping_add(s1).wrapping_add(choice).wrapping_add(*k).wrapping_add(*w);
        let s0 = v[0].rotate_right(2) ^ v[0].rotate_right(13) ^ v[0].rotate_right(22);
        let majority = (v[0] & v[1]) ^ (v[0] & v[2]) ^ (v[1] & v[2]);
        v.rotate_right(1);
        v[4] = v[4].wrapping_add(t1);
        v[0] = t1.wrapping_add(s0).wrapping_add(majority);
    }
    for (s, v) in state.iter_mut().zip(v) {
        *s = s.wrapping_add(v);
    }
}

/// The digest in lower-case hex digits.
pub fn hex(message: &[u8]) -> String {
    let mut state = constants(8, f64::sqrt);
    let k = constants(64, f64::cbrt);
    for block in padded(message).chunks(64) {
        compress(&mut state, &k, block);
    }
    state.iter().map(|word| format!("{word:08x}")).collect()
}
