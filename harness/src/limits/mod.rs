//! Which limits of the map some sheets met, which kinds of weak ends, of fills and of residuals, which limits of a run
//! some calls, and which limits of a join some pairs of files.

pub mod fills;
pub mod join;
pub mod map;
pub mod peel;
pub mod roots;
pub mod run;

/// A limit's name, and whether it is met.
pub type Limit<S> = (&'static str, fn(&S) -> bool);

/// What may meet limits.
pub trait Limits: Sized + 'static {
    const LIMITS: &'static [Limit<Self>];
}

/// How often each was met.
pub struct Met<S: Limits>(Vec<(usize, &'static Limit<S>)>);

impl<S: Limits> Default for Met<S> {
    fn default() -> Self {
        Met(S::LIMITS.iter().map(|limit| (0, limit)).collect())
    }
}

impl<S: Limits> Met<S> {
    pub fn add(&mut self, seen: &S) {
        for (count, (_, met)) in &mut self.0 {
            *count += usize::from(met(seen));
        }
    }

    pub fn each(&self) -> impl Iterator<Item = (&'static str, usize)> + '_ {
        self.0.iter().map(|(count, (name, _))| (*name, *count))
    }
}
