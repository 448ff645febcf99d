
pub use evaluate::KeptView;

impl TightPlan {
    /// The packed readers of a node.
    pub fn reader_words(&self, node: usize) -> Vec<u64> {
        let readers = self.readers.as_ref().expect("updates are prepared");
        readers.of(node).iter().map(|reader| reader.word()).collect()
    }

    /// The atom nodes of an atom.
    pub fn atom_nodes(&self, atom: usize) -> &[usize] {
        let readers = self.readers.as_ref().expect("updates are prepared");
        readers.atom_nodes(atom)
    }
}
