//! A file taken apart into its chunks and put together again, and trailers made right.

use super::{Files, trailer};

/// A file as its header, its chunks in the order of its index, and how many bytes stand around them.
#[derive(Clone, Debug)]
pub struct Parts {
    pub header: [u8; 8],
    pub chunks: Vec<([u8; 4], Vec<u8>)>,
    pub gap: usize,
    pub tail: usize,
}

fn offset(file: &[u8], k: usize) -> usize {
    let at = 12 + 12 * k;
    u64::from_be_bytes(file[at..at + 8].try_into().unwrap()) as usize
}

impl Parts {
    pub fn new(bases: u8, chunks: Vec<([u8; 4], Vec<u8>)>) -> Parts {
        Parts { header: [b'C', b'G', b'P', b'H', 1, 1, chunks.len() as u8, bases], chunks, gap: 0, tail: 20 }
    }

    /// Takes apart a file that is sound.
    pub fn read(file: &[u8]) -> Parts {
        let count = file[6] as usize;
        let chunk = |k: usize| {
            let id = file[8 + 12 * k..12 + 12 * k].try_into().unwrap();
            (id, file[offset(file, k)..offset(file, k + 1)].to_vec())
        };
        let gap = offset(file, 0) - 20 - 12 * count;
        Parts { header: file[..8].try_into().unwrap(), chunks: (0..count).map(chunk).collect(), gap, tail: 20 }
    }

    pub fn chunk(&mut self, id: &[u8; 4]) -> Option<&mut Vec<u8>> {
        self.chunks.iter_mut().find(|(name, _)| name == id).map(|(_, body)| body)
    }

    pub fn remove(&mut self, id: &[u8; 4]) {
        self.chunks.retain(|(name, _)| name != id);
        self.header[6] = self.chunks.len() as u8;
    }

    /// Adds a chunk at this place of the index.
    pub fn insert(&mut self, at: usize, id: [u8; 4], body: Vec<u8>) {
        self.chunks.insert(at, (id, body));
        self.header[6] = self.chunks.len() as u8;
    }

    /// The file. Its trailer is right where it has 20 bytes.
    pub fn write(&self) -> Vec<u8> {
        let mut file = self.header.to_vec();
        let mut at = (8 + 12 * (self.chunks.len() + 1) + self.gap) as u64;
        for (id, body) in &self.chunks {
            file.extend(id);
            file.extend(at.to_be_bytes());
            at += body.len() as u64;
        }
        file.extend([0; 4]);
        file.extend(at.to_be_bytes());
        file.resize(file.len() + self.gap, 0x5a);
        self.chunks.iter().for_each(|(_, body)| file.extend(body));
        file.resize(file.len() + self.tail, 0);
        seal(&mut file);
        file
    }
}

/// The digest of these bytes, by the stand-in.
pub fn digest(bytes: &[u8]) -> [u8; 20] {
    let mut hasher = gix_hash::hasher(gix_hash::Kind::Sha1);
    hasher.update(bytes);
    let Ok(gix_hash::ObjectId::Sha1(digest)) = hasher.try_finalize();
    digest
}

/// Makes the last 20 bytes the digest of those before them.
pub fn seal(file: &mut [u8]) {
    if let Some(end) = file.len().checked_sub(20) {
        let sum = digest(&file[..end]);
        file[end..].copy_from_slice(&sum);
    }
}

/// Where base ids start in a file: its BASE chunk, if its index says so and they fit.
fn bases_at(file: &[u8], count: usize) -> Option<usize> {
    let chunks = *file.get(6)? as usize;
    let entries = file.get(8..8 + 12 * chunks)?;
    let entry = entries.chunks_exact(12).find(|entry| &entry[..4] == b"BASE")?;
    let at = u64::from_be_bytes(entry[4..].try_into().unwrap());
    let end = at.checked_add(20 * count as u64 + 20)?;
    (end <= file.len() as u64).then_some(at as usize)
}

/// Makes everything right again that follows from other bytes: base ids, trailers, lengths and claims.
pub fn seal_all(files: &mut Files) {
    let mut trailers: Vec<u8> = Vec::new();
    for (file, _) in &mut files.0 {
        if let Some(at) = bases_at(file, trailers.len() / 20) {
            file[at..at + trailers.len()].copy_from_slice(&trailers);
        }
        seal(file);
        trailers.extend(trailer(file));
    }
    files.relist();
}
