//! A summary of a plugin's ports, to pass it by without a look at its lists: the feature
//! `summary`.

use crate::list::PortList;

/// Whether this build has summaries.
pub const SUMMARIES: bool = cfg!(feature = "summary");

/// One word with the feature, and none without.
const WORDS: usize = SUMMARIES as usize;

/// A bit for each key's remainder by 64. Without a word nothing is ruled out: each question
/// is answered with true, and the compiler leaves it out.
#[derive(Clone, Copy, Debug)]
pub(crate) struct Summary([u64; WORDS]);

impl Summary {
    pub(crate) const EMPTY: Self = Self([0; WORDS]);

    pub(crate) fn of<const N: usize>(list: &PortList<N>) -> Self {
        Self(Self::EMPTY.0.map(|word| list.iter().fold(word, |word, port| word | bit(port.key))))
    }

    pub(crate) fn with(self, key: u64) -> Self {
        Self(self.0.map(|word| word | bit(key)))
    }

    /// Whether a port with this key may be in it.
    pub(crate) fn may_have(self, key: u64) -> bool {
        self.0.iter().all(|word| word & bit(key) != 0)
    }

    /// Whether a port may be in both.
    pub(crate) fn may_share(self, other: Self) -> bool {
        self.0.iter().zip(other.0).all(|(word, other)| word & other != 0)
    }
}

const fn bit(key: u64) -> u64 {
    1 << (key % 64)
}

#[cfg(test)]
mod tests {
    use super::*;
    use crate::ports::Port;

    fn of(keys: &[u64]) -> Summary {
        let mut list = PortList::<16>::EMPTY;
        list.refill(keys.iter().map(|&key| Port::in_default_realm(key)));
        Summary::of(&list)
    }

    #[test]
    fn what_was_added_may_be_there() {
        for key in [0, 1, 63, 64, 1 << 40, u64::MAX] {
            assert!(of(&[5, key]).may_have(key));
            assert!(of(&[5]).with(key).may_have(key));
            assert!(of(&[5, key]).may_share(of(&[key, 6])));
        }
    }

    #[test]
    fn only_with_the_feature_something_is_ruled_out() {
        assert_eq!(of(&[1, 2]).may_have(3), !SUMMARIES);
        assert_eq!(of(&[1, 2]).may_share(of(&[3, 4])), !SUMMARIES);
        assert_eq!(of(&[]).may_have(0), !SUMMARIES);
        // The same remainder.
        assert!(of(&[1, 2]).may_have(66));
    }
}
