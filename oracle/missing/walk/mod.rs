// Stands in for purr's walk/mod.rs, which was not supplied.

mod error;
mod follower;
mod walk;

pub use error::Error;
pub use follower::Follower;
pub use walk::walk;
