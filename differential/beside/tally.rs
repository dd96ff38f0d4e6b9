// What was compared, and what differs.
use std::fmt::Debug;

pub struct Tally {
    pub compared: u64,
    pub differ: u64,
    shown: u64,
}

impl Tally {
    pub fn new() -> Tally {
        Tally { compared: 0, differ: 0, shown: 0 }
    }

    /// One comparison: what Rust says of the input, and what the archive answered and left in lent memory.
    pub fn same<T: PartialEq + Debug>(&mut self, what: &str, input: &dyn Debug, rust: T, ours: T) {
        self.compared += 1;
        if rust == ours {
            return;
        }
        self.differ += 1;
        if self.shown < 10 {
            self.shown += 1;
            println!("{} differs at {:?}\n  Rust {:?}\n  ours {:?}", what, input, rust, ours);
        }
    }

    /// A second look at something that is compared already: only a difference is counted.
    pub fn agree<T: PartialEq + Debug>(&mut self, what: &str, input: &dyn Debug, rust: &T, ours: &T) {
        if rust != ours {
            self.same(what, input, rust, ours);
            self.compared -= 1;
        }
    }

    /// The figures of one leaf, which is run to its end; each leaf shows its own first differences.
    pub fn leaf(&mut self, name: &str, run: impl FnOnce(&mut Tally)) {
        let (compared, differ) = (self.compared, self.differ);
        self.shown = 0;
        run(self);
        println!("{:8} {} compared, {} differ", name, self.compared - compared, self.differ - differ);
    }
}

/// A text as it is shown: what is no printable ASCII stands as \xHH.
pub struct Text<'a>(pub &'a [u8]);

impl Debug for Text<'_> {
    fn fmt(&self, f: &mut std::fmt::Formatter<'_>) -> std::fmt::Result {
        let shown: String = self.0.iter().flat_map(|b| std::ascii::escape_default(*b)).map(char::from).collect();
        write!(f, "\"{}\" ({} bytes)", shown, self.0.len())
    }
}
