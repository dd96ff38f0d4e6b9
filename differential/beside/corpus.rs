// The inputs: the same ones for the same seed on every machine.

pub struct Rng(pub u64);

impl Rng {
    // splitmix64
    pub fn next(&mut self) -> u64 {
        self.0 = self.0.wrapping_add(0x9e37_79b9_7f4a_7c15);
        let mut z = self.0;
        z = (z ^ (z >> 30)).wrapping_mul(0xbf58_476d_1ce4_e5b9);
        z = (z ^ (z >> 27)).wrapping_mul(0x94d0_49bb_1331_11eb);
        z ^ (z >> 31)
    }

    pub fn below(&mut self, n: usize) -> usize {
        (self.next() % n as u64) as usize
    }

    pub fn one_in(&mut self, n: usize) -> bool {
        self.below(n) == 0
    }

    // A number of any width, so that small ones and large ones are met alike.
    pub fn number(&mut self) -> u64 {
        let shift = self.below(64);
        self.next() >> shift
    }
}

/// Every sequence of `least` to `most` pieces of the alphabet.
pub fn sequences(alphabet: &[&[u8]], least: usize, most: usize, f: &mut dyn FnMut(&[u8])) {
    let mut text = Vec::new();
    for n in least..=most {
        let mut chosen = vec![0; n];
        loop {
            text.clear();
            for &i in &chosen {
                text.extend_from_slice(alphabet[i]);
            }
            f(&text);
            // the next sequence, counted up from its last piece
            let mut k = n;
            while k > 0 {
                chosen[k - 1] += 1;
                if chosen[k - 1] < alphabet.len() {
                    break;
                }
                chosen[k - 1] = 0;
                k -= 1;
            }
            if k == 0 {
                break;
            }
        }
    }
}

/// Every text of at most `most` of these bytes.
pub fn texts(alphabet: &[u8], most: usize, f: &mut dyn FnMut(&[u8])) {
    let pieces: Vec<&[u8]> = alphabet.chunks(1).collect();
    sequences(&pieces, 0, most, f);
}

/// A sequence of at most `most` pieces, chosen freely.
pub fn any_of(rng: &mut Rng, alphabet: &[&[u8]], most: usize) -> Vec<u8> {
    let n = rng.below(most + 1);
    (0..n).flat_map(|_| alphabet[rng.below(alphabet.len())].to_vec()).collect()
}

/// One slip: a byte lost, added, changed, doubled or moved, or an end cut off.
pub fn damage(rng: &mut Rng, text: &mut Vec<u8>, bytes: &[u8]) {
    let b = if rng.one_in(8) { rng.next() as u8 } else { bytes[rng.below(bytes.len())] };
    if text.is_empty() {
        text.push(b);
        return;
    }
    let at = rng.below(text.len());
    match rng.below(6) {
        0 => drop(text.remove(at)),
        1 => text.insert(at, b),
        2 => text[at] = b,
        3 => text.insert(at, text[at]),
        4 => {
            let other = rng.below(text.len());
            text.swap(at, other);
        }
        _ => text.truncate(at),
    }
}
