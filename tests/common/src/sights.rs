//! What has to be seen: a comparison in which nothing differed is worth little where it showed little.

use std::borrow::Cow;
use std::collections::BTreeMap;
use std::fmt;

type Name = Cow<'static, str>;

/// How often a condition held, and how often it has to, at least.
#[derive(Clone, Copy, PartialEq, Eq, Debug)]
struct Sight {
    seen: u64,
    least: u64,
}

/// Conditions by name, each with its count and the least that will do, in the order in which they were asked for.
#[derive(Clone, PartialEq, Eq, Debug, Default)]
pub struct Sights {
    all: Vec<(Name, Sight)>,
    places: BTreeMap<Name, usize>,
}

impl Sights {
    /// Each of these has to be seen once.
    pub fn of<N: Into<Name>>(names: impl IntoIterator<Item = N>) -> Sights {
        let mut sights = Sights::default();
        names.into_iter().for_each(|name| sights.ask(name, 0, 1));
        sights
    }

    /// One condition more, which was seen so often and has to be so often.
    pub fn ask(&mut self, name: impl Into<Name>, seen: u64, least: u64) {
        let name = name.into();
        let before = self.places.insert(name.clone(), self.all.len());
        assert!(before.is_none(), "asked for twice: {name}");
        self.all.push((name, Sight { seen, least }));
    }

    /// Counts a condition where it holds. A name that was not asked for is a slip of the program, whether it holds or not.
    pub fn see(&mut self, holds: bool, name: &str) {
        self.sight(name).seen += u64::from(holds);
    }

    fn sight(&mut self, name: &str) -> &mut Sight {
        let place = self.places.get(name).unwrap_or_else(|| panic!("not asked for: {name}"));
        &mut self.all[*place].1
    }

    /// How often a condition held.
    pub fn seen(&self, name: &str) -> u64 {
        self.all[self.places[name]].1.seen
    }

    /// Adds the counts of the same conditions.
    pub fn add(&mut self, other: &Sights) {
        other.all.iter().for_each(|(name, sight)| self.sight(name).seen += sight.seen);
    }

    /// Takes the conditions of another list in, with this before their names.
    pub fn take_in(&mut self, before: &str, other: &Sights) {
        other.all.iter().for_each(|(name, sight)| self.ask(format!("{before}{name}"), sight.seen, sight.least));
    }

    /// Whatever was seen too seldom.
    pub fn missing(&self) -> Vec<String> {
        let seldom = self.all.iter().filter(|(_, sight)| sight.seen < sight.least);
        seldom.map(|(name, Sight { seen, least })| format!("{name}: {seen} times, at least {least}")).collect()
    }
}

impl fmt::Display for Sights {
    fn fmt(&self, to: &mut fmt::Formatter) -> fmt::Result {
        writeln!(to, "    seen at least")?;
        self.all.iter().try_for_each(|(name, Sight { seen, least })| writeln!(to, "{seen:8} {least:8}  {name}"))
    }
}

#[cfg(test)]
mod tests {
    use super::*;

    #[test]
    fn once_each() {
        let mut sights = Sights::of(["one", "two"]);
        sights.see(true, "one");
        sights.see(false, "two");
        assert_eq!(sights.missing(), ["two: 0 times, at least 1"]);
        sights.see(true, "two");
        assert_eq!(sights.missing(), [""; 0]);
        assert_eq!((sights.seen("one"), sights.seen("two")), (1, 1));
    }

    #[test]
    fn as_often_as_asked() {
        let mut sights = Sights::default();
        sights.ask("few", 2, 3);
        sights.ask("any", 0, 0);
        assert_eq!(sights.missing(), ["few: 2 times, at least 3"]);
        sights.see(true, "few");
        assert_eq!(sights.missing(), [""; 0]);
    }

    #[test]
    fn several_lists() {
        let mut sum = Sights::of(["one"]);
        let mut other = Sights::of(["one"]);
        other.see(true, "one");
        sum.add(&other);
        sum.add(&other);
        assert_eq!(sum.seen("one"), 2);
        sum.take_in("of another: ", &Sights::of(["one"]));
        assert_eq!(sum.missing(), ["of another: one: 0 times, at least 1"]);
        assert!(sum.to_string().contains("       2        1  one\n"), "{sum}");
    }

    #[test]
    #[should_panic(expected = "not asked for: three")]
    fn a_name_that_is_not_there() {
        Sights::of(["one"]).see(false, "three");
    }

    #[test]
    #[should_panic(expected = "asked for twice: one")]
    fn a_name_twice() {
        Sights::of(["one", "one"]);
    }
}
