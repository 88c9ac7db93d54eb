// The published macros implement ordering and hashing for a type when the features "ord" and "hash" are on.
// Here both features are off, and no compared call orders or hashes anything: ours expand to nothing.

macro_rules! impl_ord_for_fieldless_enum {
    ($($any:tt)*) => {};
}
macro_rules! impl_hash_for_fieldless_enum {
    ($($any:tt)*) => {};
}
macro_rules! impl_ord_for_single_field {
    ($($any:tt)*) => {};
}
macro_rules! impl_hash_for_single_field {
    ($($any:tt)*) => {};
}
macro_rules! impl_ord_with_fields {
    ($($any:tt)*) => {};
}
macro_rules! impl_hash_with_fields {
    ($($any:tt)*) => {};
}
