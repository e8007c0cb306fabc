//! Where the variables of a scope's sub-scopes stand in its frame.

use crate::decode::MAX_SUBSCOPES;

/// First slot of each sub-scope's variables.
#[derive(Clone, Copy, Debug, Default)]
pub struct Layout {
    pub offsets: [usize; MAX_SUBSCOPES],
    /// Slots of all sub-scopes together.
    pub size: usize,
}

impl Layout {
    /// From the number of variables of each sub-scope.
    pub fn of(lengths: impl Iterator<Item = usize>) -> Layout {
        let mut layout = Layout::default();
        for (offset, length) in layout.offsets.iter_mut().zip(lengths) {
            *offset = layout.size;
            layout.size += length;
        }
        layout
    }
}
