//! A set of policies, and what is told of each.

use crate::faults::{Faults, Place};
use crate::raw::{self, Answer, RawEntity, RawPolicy, RawScope};
use crate::{or_end, Error};
use std::fmt;
use std::ops::Range;
use std::str::FromStr;

/// The policies that a text means, in its order: `policy0`, `policy1` and so on.
pub struct PolicySet(Answer);

impl PolicySet {
    /// The policies that a text means, or all its faults. Want of memory ends the process.
    pub fn parse(text: &str) -> Result<PolicySet, Faults> {
        or_end(PolicySet::try_parse(text))
    }

    /// The same, where want of memory is told.
    pub fn try_parse(text: &str) -> Result<PolicySet, Error> {
        raw::parse_policies(text).map(PolicySet)
    }

    /// The policies, in the order of the text.
    pub fn iter(&self) -> Policies<'_> {
        Policies(self.0.policies().iter())
    }

    /// How many there are, the templates among them.
    pub fn len(&self) -> usize {
        self.0.policies().len()
    }

    /// Whether there is none.
    pub fn is_empty(&self) -> bool {
        self.len() == 0
    }

    /// The policy of an id, if there is one.
    pub fn get(&self, id: &str) -> Option<Policy<'_>> {
        let number: usize = id.strip_prefix("policy")?.parse().ok()?;
        let policy = Policy(self.0.policies().get(number)?);
        (policy.id() == id).then_some(policy)
    }
}

impl FromStr for PolicySet {
    type Err = Faults;

    fn from_str(text: &str) -> Result<PolicySet, Faults> {
        PolicySet::parse(text)
    }
}

impl<'a> IntoIterator for &'a PolicySet {
    type Item = Policy<'a>;
    type IntoIter = Policies<'a>;

    fn into_iter(self) -> Policies<'a> {
        self.iter()
    }
}

impl fmt::Debug for PolicySet {
    fn fmt(&self, f: &mut fmt::Formatter<'_>) -> fmt::Result {
        f.debug_list().entries(self).finish()
    }
}

/// The policies of a set, in the order of the text.
#[derive(Clone)]
pub struct Policies<'a>(std::slice::Iter<'a, RawPolicy>);

impl<'a> Iterator for Policies<'a> {
    type Item = Policy<'a>;

    fn next(&mut self) -> Option<Policy<'a>> {
        self.0.next().map(Policy)
    }

    fn size_hint(&self) -> (usize, Option<usize>) {
        self.0.size_hint()
    }
}

impl ExactSizeIterator for Policies<'_> {}

/// What a policy does where it applies.
#[derive(Clone, Copy, Debug, PartialEq, Eq)]
pub enum Effect {
    /// It allows.
    Permit,
    /// It forbids.
    Forbid,
}

/// A policy, lent by its set.
#[derive(Clone, Copy)]
pub struct Policy<'a>(&'a RawPolicy);

impl<'a> Policy<'a> {
    /// Its name in the set: `policy` and how many stand before it.
    pub fn id(self) -> &'a str {
        self.0.id()
    }

    /// Whether it allows or forbids.
    pub fn effect(self) -> Effect {
        if self.0.is_forbid {
            Effect::Forbid
        } else {
            Effect::Permit
        }
    }

    /// Its tokens with one space between two, comments left out.
    pub fn printed(self) -> &'a str {
        self.0.printed()
    }

    /// Keys and values, in the order of the keys; the value of `@key` is empty.
    pub fn annotations(self) -> impl ExactSizeIterator<Item = (&'a str, &'a str)> {
        self.0
            .annotations()
            .iter()
            .map(|annotation| annotation.pair())
    }

    /// The value of an annotation, if there is one with this key.
    pub fn annotation(self, key: &str) -> Option<&'a str> {
        self.annotations()
            .find(|pair| pair.0 == key)
            .map(|pair| pair.1)
    }

    /// What it asks of the principal.
    pub fn principal(self) -> Scope<'a> {
        Scope(&self.0.principal)
    }

    /// What it asks of the action.
    pub fn action(self) -> Scope<'a> {
        Scope(&self.0.action)
    }

    /// What it asks of the resource.
    pub fn resource(self) -> Scope<'a> {
        Scope(&self.0.resource)
    }

    /// Whether a slot stands in its scope.
    pub fn is_template(self) -> bool {
        self.0.is_template
    }

    /// The slots of its scope: `?principal` before `?resource`.
    pub fn slots(self) -> impl Iterator<Item = &'static str> {
        let principal = self.0.principal.is_slot.then_some("?principal");
        let resource = self.0.resource.is_slot.then_some("?resource");
        principal.into_iter().chain(resource)
    }

    /// The bytes of the text where it stands, its annotations too.
    pub fn range(self) -> Range<usize> {
        self.0.place.start..self.0.place.end
    }

    /// The same with lines and columns.
    pub fn place(self) -> Place {
        Place::of(&self.0.place)
    }
}

impl fmt::Debug for Policy<'_> {
    fn fmt(&self, f: &mut fmt::Formatter<'_>) -> fmt::Result {
        f.debug_struct("Policy")
            .field("id", &self.id())
            .field("effect", &self.effect())
            .field("annotations", &self.annotations().collect::<Vec<_>>())
            .field("is_template", &self.is_template())
            .field("range", &self.range())
            .field("printed", &self.printed())
            .finish()
    }
}

/// How a scope asks for its variable; the words of Cedar's JSON policies.
#[derive(Clone, Copy, Debug, PartialEq, Eq)]
pub enum Operator {
    /// Nothing is asked.
    All,
    /// `==` an entity or a slot.
    Eq,
    /// `in` an entity or a slot; of an action, in one of a list.
    In,
    /// `is` a type, and maybe `in` an entity or a slot.
    Is,
}

/// What a policy asks of a variable.
#[derive(Clone, Copy)]
pub struct Scope<'a>(&'a RawScope);

impl<'a> Scope<'a> {
    /// How it asks. The library has no other words than these; it would panic at another.
    pub fn operator(self) -> Operator {
        match self.0.operator() {
            "All" => Operator::All,
            "==" => Operator::Eq,
            "in" => Operator::In,
            "is" => Operator::Is,
            other => unreachable!("the library has no operator {other}"),
        }
    }

    /// The type of `is`.
    pub fn entity_type(self) -> Option<&'a str> {
        Some(self.0.entity_type()).filter(|name| !name.is_empty())
    }

    /// The entities that stand there; none where a slot does.
    pub fn entities(self) -> impl ExactSizeIterator<Item = Entity<'a>> {
        self.0.entities().iter().map(Entity)
    }

    /// Whether the variable's slot stands there.
    pub fn is_slot(self) -> bool {
        self.0.is_slot
    }
}

impl fmt::Debug for Scope<'_> {
    fn fmt(&self, f: &mut fmt::Formatter<'_>) -> fmt::Result {
        f.debug_struct("Scope")
            .field("operator", &self.operator())
            .field("entity_type", &self.entity_type())
            .field("entities", &self.entities().collect::<Vec<_>>())
            .field("is_slot", &self.is_slot())
            .finish()
    }
}

/// An entity of a scope.
#[derive(Clone, Copy)]
pub struct Entity<'a>(&'a RawEntity);

impl<'a> Entity<'a> {
    /// Its type: `A::B` of `A::B::"c"`.
    pub fn entity_type(self) -> &'a str {
        self.0.pair().0
    }

    /// Its id, escapes resolved: `c` of `A::B::"c"`.
    pub fn id(self) -> &'a str {
        self.0.pair().1
    }
}

impl fmt::Debug for Entity<'_> {
    fn fmt(&self, f: &mut fmt::Formatter<'_>) -> fmt::Result {
        write!(f, "{}::{:?}", self.entity_type(), self.id())
    }
}
