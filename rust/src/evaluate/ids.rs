//! The ids that an experiment files: in sequence, or the same numbers scattered by a one-to-one map.

/// How many bits an id has, and how many of them are left below its tenant's.
const ID_BITS: u32 = 30;
const TENANT_ID_BITS: u32 = 27;

/// An odd number, so that multiplying by it modulo a power of two is one-to-one.
pub const FACTOR: u32 = 739_982_445;

/// A number below 2^30 made an id by a one-to-one map.
pub type Map = fn(u32) -> u32;

/// The number itself.
pub fn in_sequence(number: u32) -> u32 {
    number % (1 << ID_BITS)
}

/// Scattered over all ids, and over the tenants.
pub fn scattered(number: u32) -> u32 {
    number.wrapping_mul(FACTOR) % (1 << ID_BITS)
}

/// Scattered over the ids of the number's own tenant: the top three of the 30 bits stay.
pub fn within_tenant(number: u32) -> u32 {
    let low = (1 << TENANT_ID_BITS) - 1;
    (in_sequence(number) & !low) | (number.wrapping_mul(FACTOR) & low)
}

/// Each map with its name.
pub const MAPS: [(&str, Map); 3] = [
    ("in sequence", in_sequence),
    ("scattered", scattered),
    ("scattered within a tenant", within_tenant),
];

#[cfg(test)]
mod tests {
    use super::*;
    use ticket_archive::tenant_of;

    /// The odd number whose product with this one is 1 modulo 2^32, by Newton's steps.
    fn inverse(factor: u32) -> u32 {
        (0..5).fold(factor, |guess, _| {
            guess.wrapping_mul(2u32.wrapping_sub(factor.wrapping_mul(guess)))
        })
    }

    #[test]
    fn scattering_can_be_undone() {
        let back = inverse(FACTOR);
        assert_eq!(FACTOR.wrapping_mul(back), 1);
        for number in (0..1 << 30).step_by(4_099).chain([(1 << 30) - 1]) {
            let id = scattered(number);
            assert!(id < 1 << 30);
            assert_eq!(id.wrapping_mul(back) % (1 << 30), number);
            let id = within_tenant(number);
            let low = id.wrapping_mul(back) % (1 << 27);
            assert_eq!(
                (tenant_of(id), low),
                (tenant_of(number), number % (1 << 27))
            );
        }
    }

    #[test]
    fn no_two_of_the_first_numbers_share_an_id() {
        for (name, map) in MAPS {
            let mut ids: Vec<u32> = (0..1 << 20).map(map).collect();
            ids.sort_unstable();
            ids.dedup();
            assert_eq!(ids.len(), 1 << 20, "{name}");
        }
    }
}
