//! The little of `sprs` that the given Rust calls. As in `sprs`, entries at the
//! same place are added up when the matrix is made, and reading goes by rows.

pub struct TriMat<N> {
    shape: (usize, usize),
    triplets: Vec<(usize, usize, N)>,
}

impl<N: Copy> TriMat<N> {
    pub fn new(shape: (usize, usize)) -> Self {
        Self { shape, triplets: Vec::new() }
    }

    pub fn add_triplet(&mut self, row: usize, col: usize, value: N) {
        assert!(row < self.shape.0 && col < self.shape.1);
        self.triplets.push((row, col, value));
    }
}

impl TriMat<f64> {
    /// No slower than `sprs`: triplets that come in order are taken as they are.
    pub fn to_csr(&self) -> CsMat<f64> {
        let mut triplets: Vec<_> = self.triplets.iter().map(|&(i, j, v)| (v, (i, j))).collect();
        if triplets.windows(2).any(|two| two[0].1 >= two[1].1) {
            triplets.sort_by_key(|&(_, at)| at);
        }
        let mut entries: Vec<Entry<f64>> = Vec::with_capacity(triplets.len());
        for (value, at) in triplets {
            match entries.last_mut() {
                Some(last) if last.1 == at => last.0 += value,
                _ => entries.push((value, at)),
            }
        }
        CsMat { shape: self.shape, entries }
    }
}

type Entry<N> = (N, (usize, usize));

#[derive(Clone)]
pub struct CsMat<N> {
    shape: (usize, usize),
    entries: Vec<Entry<N>>,
}

impl<N> CsMat<N> {
    pub fn zero(shape: (usize, usize)) -> Self {
        Self { shape, entries: Vec::new() }
    }

    pub fn cols(&self) -> usize {
        self.shape.1
    }
}

impl<'a, N> IntoIterator for &'a CsMat<N> {
    type Item = (&'a N, (usize, usize));
    type IntoIter = std::iter::Map<std::slice::Iter<'a, Entry<N>>, fn(&'a Entry<N>) -> Self::Item>;
    fn into_iter(self) -> Self::IntoIter {
        self.entries.iter().map(|(value, at)| (value, *at))
    }
}
