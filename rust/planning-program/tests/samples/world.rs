//! What a sample is about, as something to act in and to look at.

/// One case's world.
pub trait World: Clone {
    /// Does the action with this name, and says whether it can be done.
    fn act(&mut self, action: &str) -> bool;

    /// Whether what the fact's name says is so.
    fn holds(&self, fact: &str) -> bool;

    /// Whether the world is as the case wants it at the end.
    fn at_goal(&self) -> bool;
}
