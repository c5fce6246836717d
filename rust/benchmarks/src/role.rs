//! What the contestants are.

use belaykeel::Engine;
use std::fmt;

/// What a contestant is.
#[derive(Clone, Copy, Debug, PartialEq, Eq)]
pub enum Role {
    /// The proved library with this engine. It closes by AC-4.
    Proved(Engine),
    /// Plain SAC-1 that revises one neighbour after the other, with a branch for each value: the ordinary bit-parallel AC-3.
    Branching,
    /// The same without a branch, and SAC-2 and the queue that close in that way: the proved engines' algorithms before AC-4.
    BranchFree,
    BranchFreeSac2,
    BranchFreeQueue,
    /// Plain SAC-1 over AC-4: the algorithm of the proved engine 1.
    Ac4,
    /// Plain SAC-1 that revises all neighbours at once, with the values in groups: the fastest plain Rust that was found.
    AtOnce,
    /// Plain SAC-2 and the plain queue, which close in that way too.
    Sac2,
    Queue,
}

/// The plain SAC-1 methods.
pub const PLAIN_SAC1: [Role; 4] = [Role::Branching, Role::BranchFree, Role::Ac4, Role::AtOnce];

/// Those of them that revise one neighbour after the other.
pub const ONE_BY_ONE: [Role; 2] = [Role::Branching, Role::BranchFree];

/// The methods of engines 1, 2 and 3 over the closing before AC-4.
pub const BEFORE: [Role; 3] = [Role::BranchFree, Role::BranchFreeSac2, Role::BranchFreeQueue];

/// Every plain method.
pub const PLAIN: [Role; 8] =
    [Role::Branching, Role::BranchFree, Role::BranchFreeSac2, Role::BranchFreeQueue, Role::Ac4, Role::AtOnce, Role::Sac2, Role::Queue];

impl fmt::Display for Role {
    fn fmt(&self, formatter: &mut fmt::Formatter) -> fmt::Result {
        formatter.write_str(match self {
            Role::Proved(engine) => return write!(formatter, "engine {}", engine.number()),
            Role::Branching => "union",
            Role::BranchFree => "branch-free union, 8 rows or 24",
            Role::BranchFreeSac2 => "plain SAC-2 over branch-free union",
            Role::BranchFreeQueue => "plain queue over branch-free union",
            Role::Ac4 => "AC-4, digits as sets",
            Role::AtOnce => "all neighbours at once, values in groups",
            Role::Sac2 => "plain SAC-2",
            Role::Queue => "plain queue",
        })
    }
}
