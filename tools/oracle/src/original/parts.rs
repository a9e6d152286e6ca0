//! Of three files of cairn-proto that are not built here: the types that the eight unchanged ones name.

/// Of core.rs, which leans on modules that are not here: two types, copied.
#[allow(dead_code)]
pub mod core {
    #[derive(Debug, Clone, Copy, PartialEq, Eq, PartialOrd, Ord)]
    pub struct ContactId(pub u64);

    #[derive(Debug, Clone, Copy, PartialEq, Eq)]
    pub enum Verification {
        Unverified,
        Verified,
        Compromised,
    }
}

/// Of pairing.rs: one struct, copied (`Contact::new` takes it apart).
#[allow(dead_code)]
pub mod pairing {
    use crate::card::Card;
    use crate::epoch::PairingRole;
    use crate::original::shims::Zeroizing;

    pub(crate) struct Paired {
        pub(crate) role: PairingRole,
        pub(crate) th: [u8; 48],
        pub(crate) nonce_b: [u8; 16],
        pub(crate) peer: Card,
        pub(crate) pair_id: [u8; 16],
        pub(crate) chain_key: Zeroizing<[u8; 32]>,
        pub(crate) door_a_to_b: Zeroizing<[u8; 32]>,
        pub(crate) door_b_to_a: Zeroizing<[u8; 32]>,
        pub(crate) route_key: Zeroizing<[u8; 32]>,
    }
}

/// resume.rs is not here; `data::Session::new` reads these two fields.
#[allow(dead_code)]
pub mod resume {
    use crate::original::shims::Zeroizing;

    pub(crate) struct Keys {
        pub(crate) i_to_r: Zeroizing<[u8; 32]>,
        pub(crate) r_to_i: Zeroizing<[u8; 32]>,
    }
}
