//! Actions in words: what has to hold, and what changes.

/// A fact that has to be, or becomes, true or false.
#[derive(Clone, Debug, PartialEq, Eq)]
pub struct Literal {
    pub(super) fact: String,
    pub(super) truth: bool,
}

/// The fact is true.
pub fn is(fact: impl Into<String>) -> Literal {
    Literal {
        fact: fact.into(),
        truth: true,
    }
}

/// The fact is false.
pub fn not(fact: impl Into<String>) -> Literal {
    Literal {
        fact: fact.into(),
        truth: false,
    }
}

/// A conditional effect: it fires when its condition holds before the action, and then raises and lowers facts.
#[derive(Clone, Debug, PartialEq, Eq)]
pub struct Effect {
    pub(super) condition: Vec<Literal>,
    /// The facts raised, as `is`, and those lowered, as `not`.
    pub(super) change: Vec<Literal>,
}

/// An effect that fires when all of these hold; what it does is added by [`Effect::raises`] and [`Effect::lowers`].
pub fn when(condition: impl IntoIterator<Item = Literal>) -> Effect {
    Effect {
        condition: condition.into_iter().collect(),
        change: Vec::new(),
    }
}

/// An effect that always fires.
pub fn always() -> Effect {
    when([])
}

impl Effect {
    /// Makes facts true.
    pub fn raises(mut self, facts: impl IntoIterator<Item = impl Into<String>>) -> Effect {
        self.change.extend(facts.into_iter().map(is));
        self
    }

    /// Makes facts false, but for those that another effect raises, firing with this one.
    pub fn lowers(mut self, facts: impl IntoIterator<Item = impl Into<String>>) -> Effect {
        self.change.extend(facts.into_iter().map(not));
        self
    }
}

/// An action: it can be done where its precondition holds, and the effects whose conditions hold there fire together. A fact is true afterwards
/// if one of these raises it, or if it was true and none of them lowers it.
#[derive(Clone, Debug, PartialEq, Eq)]
pub struct Action {
    pub(super) name: String,
    pub(super) precondition: Vec<Literal>,
    pub(super) effects: Vec<Effect>,
}

/// An action with this name, which can be done anywhere and changes nothing until [`Action::needs`] and [`Action::effects`] say more.
pub fn action(name: impl Into<String>) -> Action {
    Action {
        name: name.into(),
        precondition: Vec::new(),
        effects: Vec::new(),
    }
}

impl Action {
    /// Adds to the precondition.
    pub fn needs(mut self, literals: impl IntoIterator<Item = Literal>) -> Action {
        self.precondition.extend(literals);
        self
    }

    /// Adds effects, at most 8 in all.
    pub fn effects(mut self, effects: impl IntoIterator<Item = Effect>) -> Action {
        self.effects.extend(effects);
        self
    }
}
