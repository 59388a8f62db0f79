// The modules that run with both builds of the Rust: main.rs has them twice, each time beside another
// `oracle`.
pub mod calls {
    use super::{lines, oracle};
    pub mod all;
    pub mod areas;
    pub mod build;
    pub mod files;
    pub mod lookups;
    pub mod sheets;
    pub mod steps;
}
pub mod full {
    use super::{calls, lines, oracle};
    mod rebuild;
    pub mod rebuild_lines;
    pub mod sets;
}
pub mod index {
    use super::oracle;
    pub mod segments;
}
pub mod lines {
    use super::{calls, oracle};
    mod files;
    pub mod line;
    mod list;
    pub mod lists;
    mod lookups;
    mod rebuilds;
    mod sheets;
    mod steps;
}
pub mod sets {
    use super::oracle;
    pub mod all;
    mod one;
}
