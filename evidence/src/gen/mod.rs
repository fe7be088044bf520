//! Seeded inputs. A seed and a case number name an input for good; no case depends on another.

mod also;
mod distant;
pub mod exact;
mod plans;
mod printed;
mod rng;
mod stp;
mod surveys;
mod texts;

pub use distant::distant;
pub use plans::{damaged_plan, damaged_plan_of, moat_case, Damage, PlanCase, DAMAGES};
pub use printed::{directed_plan_texts, plan_text_case};
pub use rng::Rng;
pub use stp::{damage_stp, directed_stp, stp_case, stp_file, wanted};
pub use surveys::{
    full, line, overlap, refused_pairs, refused_survey, shadowed, sparse, survey, timed, tiny, Size, WORKED,
};
pub use texts::{directed_texts, text_case};
