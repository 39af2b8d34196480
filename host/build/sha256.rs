//! SHA-256 (FIPS 180-4), so that the build needs nothing but cargo.

/// The first 32 bits of the fractional parts of the cube roots of the first 64 primes.
const K: [u32; 64] = [
    0x428a2f98, 0x71374491, 0xb5c0fbcf, 0xe9b5dba5, 0x3956c25b, 0x59f111f1, 0x923f82a4, 0xab1c5ed5,
    0xd807aa98, 0x12835b01, 0x243185be, 0x550c7dc3, 0x72be5d74, 0x80deb1fe, 0x9bdc06a7, 0xc19bf174,
    0xe49b69c1, 0xefbe4786, 0x0fc19dc6, 0x240ca1cc, 0x2de92c6f, 0x4a7484aa, 0x5cb0a9dc, 0x76f988da,
    0x983e5152, 0xa831c66d, 0xb00327c8, 0xbf597fc7, 0xc6e00bf3, 0xd5a79147, 0x06ca6351, 0x14292967,
    0x27b70a85, 0x2e1b2138, 0x4d2c6dfc, 0x53380d13, 0x650a7354, 0x766a0abb, 0x81c2c92e, 0x92722c85,
    0xa2bfe8a1, 0xa81a664b, 0xc24b8b70, 0xc76c51a3, 0xd192e819, 0xd6990624, 0xf40e3585, 0x106aa070,
    0x19a4c116, 0x1e376c08, 0x2748774c, 0x34b0bcb5, 0x391c0cb3, 0x4ed8aa4a, 0x5b9cca4f, 0x682e6ff3,
    0x748f82ee, 0x78a5636f, 0x84c87814, 0x8cc70208, 0x90befffa, 0xa4506ceb, 0xbef9a3f7, 0xc67178f2,
];

/// The same of the square roots of the first eight.
const START: [u32; 8] = [
    0x6a09e667, 0xbb67ae85, 0x3c6ef372, 0xa54ff53a, 0x510e527f, 0x9b05688c, 0x1f83d9ab, 0x5be0cd19,
];

fn block(h: &mut [u32; 8], bytes: &[u8]) {
    let mut w = [0u32; 64];
    for (to, from) in w.iter_mut().zip(bytes.chunks(4)) {
        *to = u32::from_be_bytes(from.try_into().expect("four bytes"));
    }
    for i in 16..64 {
        let (a, b) = (w[i - 15], w[i - 2]);
        let a = a.rotate_right(7) ^ a.rotate_right(18) ^ (a >> 3);
        let b = b.rotate_right(17) ^ b.rotate_right(19) ^ (b >> 10);
        w[i] = w[i - 16].wrapping_add(a).wrapping_add(w[i - 7]).wrapping_add(b);
    }
    let mut s = *h;
    for i in 0..64 {
        let [a, b, c, _, e, f, g, _] = s;
        let e1 = e.rotate_right(6) ^ e.rotate_right(11) ^ e.rotate_right(25);
        let a1 = a.rotate_right(2) ^ a.rotate_right(13) ^ a.rotate_right(22);
        let (choice, most) = ((e & f) ^ (!e & g), (a & b) ^ (a & c) ^ (b & c));
        let first =
            s[7].wrapping_add(e1).wrapping_add(choice).wrapping_add(K[i]).wrapping_add(w[i]);
        s.rotate_right(1);
        s[4] = s[4].wrapping_add(first);
        s[0] = first.wrapping_add(a1.wrapping_add(most));
    }
    for (to, from) in h.iter_mut().zip(s) {
        *to = to.wrapping_add(from);
    }
}

/// The sum in hexadecimal, as `sha256sum` prints it.
pub fn sha256(bytes: &[u8]) -> String {
    let mut h = START;
    let (whole, rest) = bytes.split_at(bytes.len() / 64 * 64);
    whole.chunks(64).for_each(|b| block(&mut h, b));
    let mut last = rest.to_vec();
    last.push(0x80);
    while last.len() % 64 != 56 {
        last.push(0);
    }
    last.extend((bytes.len() as u64 * 8).to_be_bytes());
    last.chunks(64).for_each(|b| block(&mut h, b));
    h.map(|word| format!("{word:08x}")).concat()
}
