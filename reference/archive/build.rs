//! Links the proved library from its archive, as the tool does.

include!("../../tool/build.rs");
