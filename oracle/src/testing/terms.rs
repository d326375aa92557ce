//! Trees as nodes with boxed children, for the naive learner.

/// A record, or a context when it holds a hole.
#[derive(Clone, Debug, PartialEq, Eq)]
pub enum Term {
    Hole,
    Node(u8, Vec<Term>),
}

impl Term {
    pub fn children(&self) -> &[Term] {
        match self {
            Term::Hole => &[],
            Term::Node(_, children) => children,
        }
    }

    pub fn holes(&self) -> usize {
        match self {
            Term::Hole => 1,
            Term::Node(_, children) => children.iter().map(Term::holes).sum(),
        }
    }

    /// This context with a record at its hole.
    pub fn fill(&self, record: &Term) -> Term {
        match self {
            Term::Hole => record.clone(),
            Term::Node(symbol, children) => {
                let filled = children.iter().map(|child| child.fill(record));
                Term::Node(*symbol, filled.collect())
            }
        }
    }

    /// Every occurrence with the context around it, children before parent, left to right.
    pub fn occurrences(&self) -> Vec<(Term, Term)> {
        let mut found = Vec::new();
        if let Term::Node(symbol, children) = self {
            for place in 0..children.len() {
                let mut around = children.clone();
                around[place] = Term::Hole;
                let around = Term::Node(*symbol, around);
                let below = children[place].occurrences().into_iter();
                found.extend(below.map(|(term, context)| (term, around.fill(&context))));
            }
        }
        found.push((self.clone(), Term::Hole));
        found
    }
}
