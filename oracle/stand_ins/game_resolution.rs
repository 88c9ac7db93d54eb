// The published file says how a game ended, and gives that a form for C.
// Only `Game` and `PartialGame` use it; document 01 leaves both out, so no compared call comes here.

#[repr(u8)]
#[derive(Eq, PartialEq, Clone, Copy, Debug)]
pub enum GameResolution {
    BlackWins = 1,
    WhiteWins = 2,
    Draw = 3,
}

#[derive(Eq, PartialEq, Clone, Copy, Debug, Default)]
pub struct OptionGameResolution(Option<GameResolution>);

impl From<Option<GameResolution>> for OptionGameResolution {
    fn from(arg: Option<GameResolution>) -> Self {
        Self(arg)
    }
}

impl From<OptionGameResolution> for Option<GameResolution> {
    fn from(arg: OptionGameResolution) -> Self {
        arg.0
    }
}
