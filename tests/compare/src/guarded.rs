//! Buffers with guard bytes around them.

/// Guard bytes on each side.
const GUARD: usize = 32;

/// A buffer as a C entry receives it.
#[derive(Clone, Copy, Debug)]
pub struct Lent {
    /// The first byte; null only where the length is 0
    pub pointer: *mut u8,
    /// The length in bytes
    pub length: usize,
}

/// What stands around the buffers of a call. No answer depends on it.
#[derive(Clone, Copy, Debug)]
pub struct Surroundings {
    /// The guard byte
    pub fill: u8,
    /// How far the content is moved from an aligned address
    pub shift: usize,
    /// Whether an empty buffer is lent as null
    pub null_for_empty: bool,
}

/// A copy of a buffer between guard bytes.
pub struct Guarded {
    memory: Vec<u8>,
    length: usize,
    surroundings: Surroundings,
}

impl Guarded {
    /// A copy of the content between guard bytes.
    pub fn new(content: &[u8], surroundings: Surroundings) -> Guarded {
        let length = content.len();
        let size = GUARD + surroundings.shift + length + GUARD;
        let mut guarded = Guarded {
            memory: vec![surroundings.fill; size],
            length,
            surroundings,
        };
        let start = guarded.start();
        guarded.memory[start..start + length].copy_from_slice(content);
        guarded
    }

    fn start(&self) -> usize {
        GUARD + self.surroundings.shift
    }

    /// The buffer to hand to a C entry.
    pub fn lend(&mut self) -> Lent {
        let start = self.start();
        let pointer = if self.length == 0 && self.surroundings.null_for_empty {
            std::ptr::null_mut()
        } else {
            // The whole memory, so that the guards too may be reached through it.
            self.memory.as_mut_ptr().wrapping_add(start)
        };
        Lent {
            pointer,
            length: self.length,
        }
    }

    /// The content, after the call.
    pub fn content(&self) -> &[u8] {
        &self.memory[self.start()..][..self.length]
    }

    /// Whether the guards are as they were.
    pub fn guards_kept(&self) -> bool {
        let (before, rest) = self.memory.split_at(self.start());
        let after = &rest[self.length..];
        let kept = |guard: &[u8]| guard.iter().all(|byte| *byte == self.surroundings.fill);
        kept(before) && kept(after)
    }
}
