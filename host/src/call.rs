//! The C functions over lent slices. Every content and length is allowed, as a slice tells its
//! length and two of one call cannot overlap.

/// The answer of a call on tables: one number, laid out as host/tight.h says.
#[derive(Clone, Copy, Debug, PartialEq, Eq)]
pub struct Answer(pub u64);

impl Answer {
    /// The answer of a refusal by number, place and body.
    pub fn refused([number, place, body]: [u64; 3]) -> Self {
        Self(number | place << 8 | body << 40)
    }

    pub fn planned(producers: usize) -> Self {
        Self((producers as u64) << 8)
    }

    /// The answer of a check by its verdict's number, the root or atom that it names, and the nodes
    /// visited.
    pub fn checked([verdict, named, visited]: [u64; 3]) -> Self {
        Self(verdict << 8 | named << 16 | visited << 40)
    }

    fn bits(self, from: u32, below: u32) -> u64 {
        self.0 << (64 - below) >> (64 - below + from)
    }

    /// The refusal's number; 0 if the call was not refused.
    pub fn refusal(self) -> u64 {
        self.bits(0, 8)
    }

    /// Refused: the place.
    pub fn place(self) -> u64 {
        self.bits(8, 40)
    }

    /// Refused 11: the body.
    pub fn body(self) -> u64 {
        self.bits(40, 64)
    }

    /// Planned: the number of producers.
    pub fn producers(self) -> usize {
        self.bits(8, 40) as usize
    }

    /// Checked: the verdict's number.
    pub fn verdict(self) -> u64 {
        self.bits(8, 16)
    }

    /// Checked: the root or atom that the verdict names, else 0.
    pub fn root_or_atom(self) -> u64 {
        self.bits(16, 40)
    }

    /// Checked: the nodes visited.
    pub fn visited(self) -> u64 {
        self.bits(40, 64)
    }
}

/// A theory's stamp and counts.
#[derive(Clone, Copy, Debug, PartialEq, Eq)]
pub struct Counts {
    pub stamp: u32,
    pub atoms: usize,
    pub nodes: usize,
    pub operands: usize,
    pub roots: usize,
}

/// The most atoms, nodes, operand entries and roots.
pub const LIMITS: [usize; 4] = [65_536, 262_144, 1_048_576, 262_144];

/// The least lengths of the buffers, in document 01's order.
#[derive(Clone, Copy, Debug, Default, PartialEq, Eq)]
pub struct Lengths {
    pub candidate: usize,
    pub nodes: usize,
    pub operands: usize,
    pub roots: usize,
    pub producers: usize,
    pub ranks: usize,
    pub readers: usize,
    pub kept: usize,
    pub work: usize,
}

impl Counts {
    /// Atoms, nodes, operand entries and roots.
    pub fn numbers(self) -> [usize; 4] {
        [self.atoms, self.nodes, self.operands, self.roots]
    }

    pub fn within_limits(self) -> bool {
        self.numbers()
            .iter()
            .zip(LIMITS)
            .all(|(&n, limit)| n <= limit)
    }

    /// The least lengths; all 0 if a limit is passed, as a call then looks at no buffer.
    pub fn lengths(self) -> Lengths {
        if !self.within_limits() {
            return Lengths::default();
        }
        let [a, n, o, r] = self.numbers();
        Lengths {
            candidate: a.div_ceil(64),
            nodes: 3 * n,
            operands: o,
            roots: r,
            producers: 4 * r,
            ranks: a,
            readers: 2 + a + 4 * n + o + 2 * r,
            kept: 16 + 2 * n + 3 * a + r,
            work: 16 + 5 * (a + n) + 3 * (o + n + r),
        }
    }
}

/// Buffers 1 to 3.
#[derive(Clone, Copy, Debug)]
pub struct Tables<'a> {
    pub nodes: &'a [u32],
    pub operands: &'a [u32],
    pub roots: &'a [u32],
}

/// Buffers 4 to 6 and the work area, for a planning call.
#[derive(Debug)]
pub struct Planned<'a> {
    pub producers: &'a mut [u32],
    pub ranks: &'a mut [u32],
    pub readers: &'a mut [u64],
    pub work: &'a mut [u32],
}

/// What a check takes of a plan.
#[derive(Clone, Copy, Debug)]
pub struct Lent<'a> {
    pub stamp: u32,
    pub producer_count: usize,
    pub producers: &'a [u32],
    pub readers: &'a [u64],
}

/// A candidate as lent.
#[derive(Clone, Copy, Debug)]
pub struct CandidateWords<'a> {
    pub stamp: u32,
    pub words: &'a [u64],
}

unsafe extern "C" {
    fn tight_run(file: *const u8, file_len: usize, out: *mut u8, out_len: usize) -> usize;

    fn tight_plan(
        stamp: u32,
        atoms: usize,
        node_count: usize,
        operand_count: usize,
        root_count: usize,
        nodes: *const u32,
        nodes_len: usize,
        operands: *const u32,
        operands_len: usize,
        roots: *const u32,
        roots_len: usize,
        producers: *mut u32,
        producers_len: usize,
        ranks: *mut u32,
        ranks_len: usize,
        readers: *mut u64,
        readers_len: usize,
        work: *mut u32,
        work_len: usize,
    ) -> u64;

    fn tight_certify(
        stamp: u32,
        atoms: usize,
        node_count: usize,
        operand_count: usize,
        root_count: usize,
        nodes: *const u32,
        nodes_len: usize,
        operands: *const u32,
        operands_len: usize,
        roots: *const u32,
        roots_len: usize,
        proposed: *const u32,
        proposed_len: usize,
        producers: *mut u32,
        producers_len: usize,
        ranks: *mut u32,
        ranks_len: usize,
        readers: *mut u64,
        readers_len: usize,
        work: *mut u32,
        work_len: usize,
    ) -> u64;

    fn tight_check(
        stamp: u32,
        atoms: usize,
        node_count: usize,
        operand_count: usize,
        root_count: usize,
        plan_stamp: u32,
        plan_producers: usize,
        candidate_stamp: u32,
        candidate: *const u64,
        candidate_len: usize,
        nodes: *const u32,
        nodes_len: usize,
        operands: *const u32,
        operands_len: usize,
        roots: *const u32,
        roots_len: usize,
        producers: *const u32,
        producers_len: usize,
        readers: *const u64,
        readers_len: usize,
        kept: *mut u32,
        kept_len: usize,
    ) -> u64;
}

/// `tight_plan`: plans with derived ranks.
pub fn plan(counts: Counts, tables: Tables<'_>, planned: Planned<'_>) -> Answer {
    // SAFETY: each pointer is a slice's with its length; mutable slices overlap no other.
    Answer(unsafe {
        tight_plan(
            counts.stamp,
            counts.atoms,
            counts.nodes,
            counts.operands,
            counts.roots,
            tables.nodes.as_ptr(),
            tables.nodes.len(),
            tables.operands.as_ptr(),
            tables.operands.len(),
            tables.roots.as_ptr(),
            tables.roots.len(),
            planned.producers.as_mut_ptr(),
            planned.producers.len(),
            planned.ranks.as_mut_ptr(),
            planned.ranks.len(),
            planned.readers.as_mut_ptr(),
            planned.readers.len(),
            planned.work.as_mut_ptr(),
            planned.work.len(),
        )
    })
}

/// `tight_certify`: plans with proposed ranks.
pub fn certify(
    counts: Counts,
    tables: Tables<'_>,
    proposed: &[u32],
    planned: Planned<'_>,
) -> Answer {
    // SAFETY: as in `plan`.
    Answer(unsafe {
        tight_certify(
            counts.stamp,
            counts.atoms,
            counts.nodes,
            counts.operands,
            counts.roots,
            tables.nodes.as_ptr(),
            tables.nodes.len(),
            tables.operands.as_ptr(),
            tables.operands.len(),
            tables.roots.as_ptr(),
            tables.roots.len(),
            proposed.as_ptr(),
            proposed.len(),
            planned.producers.as_mut_ptr(),
            planned.producers.len(),
            planned.ranks.as_mut_ptr(),
            planned.ranks.len(),
            planned.readers.as_mut_ptr(),
            planned.readers.len(),
            planned.work.as_mut_ptr(),
            planned.work.len(),
        )
    })
}

/// `tight_check`: checks a candidate; `kept` holds the evaluation from one check to the next.
#[inline]
pub fn check(
    counts: Counts,
    tables: Tables<'_>,
    lent: Lent<'_>,
    candidate: CandidateWords<'_>,
    kept: &mut [u32],
) -> Answer {
    // SAFETY: as in `plan`.
    Answer(unsafe {
        tight_check(
            counts.stamp,
            counts.atoms,
            counts.nodes,
            counts.operands,
            counts.roots,
            lent.stamp,
            lent.producer_count,
            candidate.stamp,
            candidate.words.as_ptr(),
            candidate.words.len(),
            tables.nodes.as_ptr(),
            tables.nodes.len(),
            tables.operands.as_ptr(),
            tables.operands.len(),
            tables.roots.as_ptr(),
            tables.roots.len(),
            lent.producers.as_ptr(),
            lent.producers.len(),
            lent.readers.as_ptr(),
            lent.readers.len(),
            kept.as_mut_ptr(),
            kept.len(),
        )
    })
}

/// List number `slot` of a reader table: slots are the nodes, one unused, then the atoms.
pub fn reader_list(readers: &[u64], slot: usize) -> Option<&[u64]> {
    let place = |slot| usize::try_from(*readers.get(slot)?).ok();
    readers.get(place(slot)?..place(slot + 1)?)
}

/// `tight_run`: the text of a theory file at the front of `out`; its length, or 0 if it does not fit.
pub fn run(file: &[u8], out: &mut [u8]) -> usize {
    // SAFETY: as in `plan`.
    unsafe { tight_run(file.as_ptr(), file.len(), out.as_mut_ptr(), out.len()) }
}
