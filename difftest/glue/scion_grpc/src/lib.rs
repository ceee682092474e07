//! Glue: the daemon's messages, with the fields that the source reads. Left out of the comparison.

/// The daemon.
pub mod daemon {
    /// Its first version.
    pub mod v1 {
        /// A path as the daemon sends it.
        #[derive(Debug, Clone, Default)]
        pub struct Path {
            /// Its bytes.
            pub raw: Vec<u8>,
            /// Its first router.
            pub interface: Option<Interface>,
        }

        /// A router's interface.
        #[derive(Debug, Clone, Default)]
        pub struct Interface {
            /// Where it is reached.
            pub address: Option<Underlay>,
        }

        /// An address below SCION.
        #[derive(Debug, Clone, Default)]
        pub struct Underlay {
            /// As text.
            pub address: String,
        }
    }
}
