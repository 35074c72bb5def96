
/// Appended to the copy: functions of the text above that are private to the crate.
pub mod reach_util {
    pub fn uniform_nonzero_u8(bits: u32, modulus: u32) -> u8 {
        super::uniform_nonzero_u8(bits, modulus)
    }

    pub fn field_bounded_add(a: u8, b: u8, field_size: u16) -> u8 {
        super::field_bounded_add(a, b, field_size)
    }
}
