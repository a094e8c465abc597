//! Safe bindings of the column selector: a controller receives its neighbour's record, laid out as the neighbour lays
//! it out, and puts every reading into its own layout. A [`Plan`], built once from the two layouts, says how;
//! [`Plan::run_into`] does it for one record.
//!
//! The library behind it is proved: each call answers as its definition says, ends on all inputs, and a refused call
//! changes nothing of a lent buffer. These bindings add no rule of their own; they are not proved.
//!
//! ```
//! use column_selector::{Incoming, Layout, Plan, Policy, Record, Target};
//!
//! // An older neighbour has a column `t` of 16 bits; ours has 32 bits, and a column `s` beside it.
//! let incoming = Incoming(Layout::read(b"LAY\x01\x00\x01\x00\x01t\x03")?);
//! let target = Target(Layout::read(b"LAY\x01\x00\x02\x00\x01t\x04\x01s\x0F")?);
//! let mut buffer = [0; 64];
//! let plan = Plan::build_by_name_into(Policy::ALL, incoming, target, &mut buffer)?;
//! let mut output = [0; 64];
//! let record = plan.run_into(incoming, target, Record::new(b"\x01\xFE\xFF"), &mut output)?;
//! assert_eq!(record.as_bytes(), b"\x01\xFE\xFF\xFF\xFF\x00");
//! # Ok::<(), column_selector::Refusal>(())
//! ```
//!
//! An incoming and a target layout have types of their own, so that the two can't be exchanged unnoticed:
//!
//! ```compile_fail
//! # use column_selector::{Incoming, Layout, Plan, Policy, Target};
//! # let (incoming, target) = (Incoming(Layout::new(b"")), Target(Layout::new(b"")));
//! # let mut buffer = [0; 64];
//! let plan = Plan::build_by_name_into(Policy::ALL, target, incoming, &mut buffer);
//! ```
//!
//! The feature `alloc`, which is on by default, adds `PlanBuf` and `Plan::run`, whose results own their bytes;
//! without it nothing of the crate allocates. [`call`] has the functions of the C interface over slices.
//!
//! The stack that a call takes stands in `include/selector.h`: at most 136 KiB for a build, 160 KiB for a check, 168
//! KiB for a run.
#![no_std]
#![warn(missing_docs)]

#[cfg(feature = "alloc")]
extern crate alloc;

mod bytes;
pub mod call;
#[cfg(feature = "alloc")]
mod owned;
mod plan;
mod policy;
mod refusal;

pub use bytes::{Defaults, Incoming, Layout, Plan, Record, Target};
#[cfg(feature = "alloc")]
pub use owned::PlanBuf;
pub use policy::{ExtraColumns, Policy};
pub use refusal::{Place, Reason, Refusal};

/// The most bytes of a layout, and of a table of defaults.
pub const LAYOUT_MAX: usize = 16_384;
/// The most bytes of a plan.
pub const PLAN_MAX: usize = 65_536;
/// The most bytes of a record.
pub const RECORD_MAX: usize = 16_384;
