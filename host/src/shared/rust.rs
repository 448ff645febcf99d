//! The lifted Rust behind the harness's types.

use crate::drawing::{Candidate, Drawing, Node, Told};
use crate::reference::algebra::Cancellation;
use crate::reference::tight::{
    TightCheckLimits, TightError, TightPlan, TightPlanLimits, TightProducerKind, TightVerdict,
    TightWorkspace,
};
use crate::reference::{self, AdmissionLimits, FormulaParts, Interpretation, OperandSpan};
use tight::{Check, Head, Producer, Refusal, Verdict};

pub const PLAN_LIMITS: TightPlanLimits = TightPlanLimits {
    max_producers: usize::MAX,
    max_dependencies: usize::MAX,
    max_bytes: u64::MAX,
    max_work: u64::MAX,
};

pub const CHECK_LIMITS: TightCheckLimits = TightCheckLimits {
    max_bytes: u64::MAX,
    max_work: u64::MAX,
};

/// A theory's columns before the Rust admits them.
pub struct Columns {
    atoms: usize,
    nodes: Vec<reference::Node>,
    operands: Vec<usize>,
    roots: Vec<usize>,
}

/// The columns of a theory: pairs inline, other groups as spans of the operand table.
pub fn columns(drawing: &Drawing) -> Columns {
    let mut operands: Vec<usize> = Vec::new();
    let nodes = drawing
        .nodes
        .iter()
        .map(|node| {
            let span = OperandSpan {
                start: operands.len(),
                length: node.operands().len(),
            };
            operands.extend(node.operands().iter().map(|&operand| operand as usize));
            match (node, &operands[span.start..]) {
                (Node::Atom(atom), _) => reference::Node::atom(*atom as usize),
                (Node::False, _) => reference::Node::falsum(),
                (Node::Implies(left, right), _) => {
                    reference::Node::implies(*left as usize, *right as usize)
                }
                (Node::And(_), &[left, right]) => reference::Node::and_pair([left, right]),
                (Node::Or(_), &[left, right]) => reference::Node::or_pair([left, right]),
                (Node::And(_), _) => reference::Node::and_span(span),
                (Node::Or(_), _) => reference::Node::or_span(span),
            }
        })
        .collect();
    Columns {
        atoms: drawing.atoms,
        nodes,
        operands,
        roots: drawing.roots.iter().map(|&root| root as usize).collect(),
    }
}

/// The theory as the Rust admits it.
pub fn admit(columns: Columns) -> reference::Theory {
    let parts = FormulaParts::new(columns.nodes, columns.operands).expect("connective nodes");
    reference::Theory::new(
        columns.atoms,
        parts,
        columns.roots,
        AdmissionLimits::default(),
    )
    .expect("an admitted theory")
}

pub fn theory(drawing: &Drawing) -> reference::Theory {
    admit(columns(drawing))
}

/// The Rust's error by its number; errors of meters and storage cannot happen here.
fn refusal(error: TightError) -> Refusal {
    match error {
        TightError::UnsupportedRoot { root } => Refusal::UnsupportedRoot { root: root as u64 },
        TightError::UnsupportedBody { root, body } => Refusal::UnsupportedBody {
            root: root as u64,
            body: body as u64,
        },
        TightError::PositiveCycle { atom } => Refusal::PositiveCycle { atom: atom as u64 },
        TightError::RankShape => Refusal::RankShape,
        TightError::RankOrder { head } => Refusal::RankOrder { head: head as u64 },
        TightError::Stopped(reference::algebra::Stop::WrongProgram) => Refusal::Stamp,
        TightError::Limit(_) | TightError::Stopped(_) => panic!("the Rust stopped: {error}"),
    }
}

pub fn plan(theory: &reference::Theory) -> Result<TightPlan, Refusal> {
    let mut plan = TightPlan::compile(theory, PLAN_LIMITS, &Cancellation).map_err(refusal)?;
    let prepared = plan.prepare_updates(PLAN_LIMITS, &Cancellation).result;
    assert_eq!(prepared, Ok(true), "the Rust's reader lists");
    Ok(plan)
}

pub fn certify(theory: &reference::Theory, ranks: &[u32]) -> Result<TightPlan, Refusal> {
    let ranks: Vec<usize> = ranks.iter().map(|&rank| rank as usize).collect();
    TightPlan::certify(theory, &ranks, PLAN_LIMITS, &Cancellation).map_err(refusal)
}

pub fn producers(plan: &TightPlan) -> Vec<Producer> {
    let producers = plan.producers().iter();
    producers
        .map(|producer| Producer {
            head: producer.head() as u32,
            body: producer.body().map(|body| body as u32),
            root: producer.root() as u32,
            kind: match producer.kind() {
                TightProducerKind::Normal => Head::Normal,
                TightProducerKind::Choice => Head::Choice,
            },
        })
        .collect()
}

pub fn ranks(plan: &TightPlan) -> Vec<u32> {
    plan.ranks().iter().map(|&rank| rank as u32).collect()
}

pub fn verdict(verdict: TightVerdict) -> Verdict {
    match verdict {
        TightVerdict::Stable => Verdict::Stable,
        TightVerdict::NotModel { root } => Verdict::NotModel { root: root as u64 },
        TightVerdict::Residual { unsupported_atom } => Verdict::Residual {
            atom: unsupported_atom as u64,
        },
    }
}

/// The Rust's workspace over one plan.
pub struct Checker<'p> {
    plan: &'p TightPlan,
    workspace: TightWorkspace,
}

impl<'p> Checker<'p> {
    pub fn new(plan: &'p TightPlan) -> Self {
        Self {
            plan,
            workspace: TightWorkspace::default(),
        }
    }

    /// The verdict, and the nodes that the heap gave out. A foreign candidate is one of a second
    /// admission of the theory; the Rust does not look at its atoms.
    pub fn check(
        &mut self,
        drawing: &Drawing,
        candidate: &Candidate,
    ) -> Result<(Verdict, Vec<usize>), Refusal> {
        let interpretation = if candidate.foreign {
            Interpretation::new(&theory(drawing), None)
        } else {
            Interpretation::new(self.plan.theory(), candidate.atoms())
        };
        let candidate = interpretation.map_err(|_| {
            let beyond = candidate.atoms().find(|&atom| atom >= drawing.atoms);
            Refusal::Beyond {
                atom: beyond.expect("only atoms are refused") as u64,
            }
        })?;
        let attempt = self
            .workspace
            .check(self.plan, &candidate, CHECK_LIMITS, &Cancellation);
        let found = verdict(attempt.result.map_err(refusal)?.verdict);
        Ok((found, self.workspace.taken()))
    }

    /// The kept evaluation; its summary too after an update.
    pub fn kept(&self) -> Option<reference::tight::KeptView<'_>> {
        self.workspace.kept()
    }
}

/// What a run tells of a theory and a series of candidates.
pub fn told(drawing: &Drawing, series: &[Candidate]) -> Result<Told, Refusal> {
    let plan = plan(&theory(drawing))?;
    let mut checker = Checker::new(&plan);
    let checks = series.iter().map(|candidate| {
        let (verdict, taken) = checker.check(drawing, candidate)?;
        // only an update leaves a summary
        let kept = checker.kept().is_some_and(|view| view.summary.is_some());
        let nodes = if kept {
            taken.len()
        } else {
            drawing.nodes.len()
        };
        Ok(Check {
            verdict,
            nodes: nodes as u64,
        })
    });
    Ok(Told {
        checks: checks.collect::<Result<_, _>>()?,
        producers: producers(&plan).len(),
        ranks: ranks(&plan),
    })
}
