//! The kinds of cases that a census counts.

/// Declares kinds: the name of each and the words for it.
macro_rules! kinds {
    ($($kind:ident, $what:literal;)*) => {
        /// A kind of case.
        #[derive(Clone, Copy)]
        pub enum Kind {
            $($kind),*
        }

        const KINDS: &[&str] = &[$($what),*];
    };
}

/// Prints how often each kind occurred.
pub fn print(kinds: &[&str], counts: &[u64]) {
    for (what, number) in kinds.iter().zip(counts) {
        println!("{what}: {number}");
    }
}

/// The kinds that did not occur.
pub fn missing(kinds: &[&'static str], counts: &[u64]) -> Vec<&'static str> {
    kinds.iter().zip(counts).filter(|(_, &number)| number == 0).map(|(&what, _)| what).collect()
}
