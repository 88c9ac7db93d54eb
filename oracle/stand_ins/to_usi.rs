// The published file declares this trait, with further ways to call `to_usi`.
// Every text that is compared is written by the implementations, which are all in the given files.

pub trait ToUsi {
    fn to_usi<W: core::fmt::Write>(&self, sink: &mut W) -> core::fmt::Result;
}
