
/// What a workspace keeps of its last check.
pub struct KeptView<'a> {
    pub truths: &'a [u8],
    pub candidate: &'a [u64],
    /// Support, missing atoms and their count, false roots and their count, once an update made them.
    pub summary: Option<(&'a [u32], &'a [u64], usize, &'a [u64], usize)>,
    /// Nodes on the heap or marked.
    pub pending: usize,
}

impl TightWorkspace {
    /// The kept evaluation, if one is held.
    pub fn kept(&self) -> Option<KeptView<'_>> {
        let retained = &self.retained;
        retained.theory.as_ref()?;
        let marked: u32 = retained.queued.iter().map(|word| word.count_ones()).sum();
        Some(KeptView {
            truths: &self.values,
            candidate: &retained.candidate,
            summary: retained.summarized.then(|| {
                (
                    &retained.support[..],
                    &retained.missing[..],
                    retained.missing_count,
                    &retained.false_roots[..],
                    retained.false_root_count,
                )
            }),
            pending: retained.pending.len() + marked as usize,
        })
    }

    /// The nodes that the heap gave out since the last call, in that order.
    pub fn taken(&mut self) -> Vec<usize> {
        self.retained
            .pending
            .taken()
            .into_iter()
            .map(|Reverse(node)| node)
            .collect()
    }
}
