//! Names each wrong codec or receiver once: the enum, and the list of all.

macro_rules! wrong {
    ($($(#[$what:meta])* $name:ident,)*) => {
        /// What is wrong.
        #[derive(Clone, Copy, Debug, PartialEq, Eq)]
        pub enum Wrong {
            $($(#[$what])* $name,)*
        }

        pub const ALL: &[Wrong] = &[$(Wrong::$name,)*];
    };
}
