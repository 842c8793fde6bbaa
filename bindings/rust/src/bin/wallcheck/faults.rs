//! What is wrong with a file: all of it at once, up to ten.

/// How many are said.
const MOST: usize = 10;

/// What is wrong with a file, each with its row or place.
#[derive(Debug, Default, PartialEq, Eq)]
pub struct Faults {
    found: Vec<String>,
    more: bool,
}

impl Faults {
    /// Adds one, and says whether to look for others.
    pub fn add(&mut self, fault: impl Into<String>) -> bool {
        self.more |= self.found.len() == MOST;
        if !self.more {
            self.found.push(fault.into());
        }
        !self.more
    }

    /// Adds all, and says whether to look for others.
    pub fn add_all(&mut self, others: Faults) -> bool {
        let added = others.found.into_iter().all(|fault| self.add(fault));
        self.more |= others.more;
        added && !self.more
    }

    /// What was read, if nothing is wrong.
    pub fn or<T>(self, read: T) -> Result<T, Faults> {
        match self.found.is_empty() {
            true => Ok(read),
            false => Err(self),
        }
    }

    pub fn is_empty(&self) -> bool {
        self.found.is_empty()
    }

    /// Each, and that there are more.
    pub fn lines(&self) -> impl Iterator<Item = &str> {
        self.found.iter().map(String::as_str).chain(self.more.then_some("and more"))
    }

    /// Line by line; nothing if nothing is wrong.
    pub fn told(&self) -> Option<String> {
        (!self.is_empty()).then(|| self.lines().collect::<Vec<_>>().join("\n"))
    }
}

impl<S: Into<String>> FromIterator<S> for Faults {
    fn from_iter<I: IntoIterator<Item = S>>(all: I) -> Faults {
        let mut faults = Faults::default();
        // an eleventh is looked for, and none after it
        let _ = all.into_iter().all(|fault| faults.add(fault));
        faults
    }
}

impl From<String> for Faults {
    fn from(fault: String) -> Faults {
        Faults { found: vec![fault], more: false }
    }
}

impl From<&str> for Faults {
    fn from(fault: &str) -> Faults {
        fault.to_string().into()
    }
}

#[cfg(test)]
mod tests {
    use super::Faults;

    #[test]
    fn ten_and_more() {
        let of = |count: usize| (0..count).map(|k| k.to_string()).collect::<Faults>();
        assert_eq!(of(0).told(), None);
        assert_eq!(of(2).told().as_deref(), Some("0\n1"));
        assert_eq!(of(10).lines().count(), 10);
        assert_eq!(of(11).lines().collect::<Vec<_>>()[9..], ["9", "and more"]);
        assert_eq!(of(12).lines().count(), 11);
    }
}
