//! All short texts over a small alphabet of the grammar's bytes, bare and inside each form.

pub const ALPHABET: &[u8] = b"x ,<>[]()?=14-";

/// What stands before and after the short text.
pub const FRAMES: [(&str, &str); 14] = [
    ("", ""),
    ("tile<", "xf32>"),
    ("tile<", "ptr<f32>>"),
    ("tile<4xptr<f32", ""),
    ("ptr<i8", ""),
    ("tensor_view<", "xf32>"),
    ("tensor_view<f32,strides=", ">"),
    ("tensor_view<f32, strides=[", "]>junk"),
    ("partition_view<tile=(", "), tensor_view<f32>>"),
    ("partition_view<tile=(2), tensor_view<f32", ", dim_map=[1]>"),
    ("partition_view<tile=(2), tensor_view<f32>, dim_map=[", ""),
    (
        "gather_scatter_view<tile=(2), tensor_view<f32>, sparse_dim=",
        "",
    ),
    (
        "strided_view<tile=(2), traversal_strides=[",
        ", tensor_view<f32>>",
    ),
    ("strided_view<tile", "2), tensor_view<f32>, dim_map=[0]>"),
];

/// Each of the twelve forms, opened and closed.
pub const FORMS: [(&str, &str); 12] = [
    ("!cuda_tile.tile<", ">"),
    ("!cuda_tile.tensor_view<", ">"),
    ("!cuda_tile.partition_view<", ">"),
    ("!cuda_tile.gather_scatter_view<", ">"),
    ("!cuda_tile.strided_view<", ">"),
    ("!cuda_tile.ptr<", ">"),
    ("tile<", ">"),
    ("tensor_view<", ">"),
    ("partition_view<", ">"),
    ("gather_scatter_view<", ">"),
    ("strided_view<", ">"),
    ("ptr<", ">"),
];

/// Counts through all texts of up to `longest` bytes in one frame, shortest first.
pub struct Exhaust {
    frame: (&'static str, &'static str),
    digits: Vec<usize>,
    longest: usize,
}

impl Exhaust {
    pub fn new(frame: (&'static str, &'static str), longest: usize) -> Exhaust {
        let digits = Vec::new();
        Exhaust {
            frame,
            digits,
            longest,
        }
    }

    /// The next number of as many digits, or the first of one more.
    fn advance(&mut self) {
        for digit in self.digits.iter_mut().rev() {
            *digit += 1;
            if *digit < ALPHABET.len() {
                return;
            }
            *digit = 0;
        }
        self.digits.push(0);
    }
}

impl Iterator for Exhaust {
    type Item = Vec<u8>;

    fn next(&mut self) -> Option<Vec<u8>> {
        if self.digits.len() > self.longest {
            return None;
        }
        let mut text = self.frame.0.as_bytes().to_vec();
        text.extend(self.digits.iter().map(|digit| ALPHABET[*digit]));
        text.extend_from_slice(self.frame.1.as_bytes());
        self.advance();
        Some(text)
    }
}

#[cfg(test)]
mod tests {
    use super::*;

    #[test]
    fn every_text_comes_once() {
        let mut all: Vec<Vec<u8>> = Exhaust::new(("", ""), 3).collect();
        let n = ALPHABET.len();
        assert_eq!(all.len(), 1 + n + n * n + n * n * n);
        all.sort();
        all.dedup();
        assert_eq!(all.len(), 1 + n + n * n + n * n * n);
    }
}
