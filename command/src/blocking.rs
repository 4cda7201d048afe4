//! `mogdivash blocking`: which kept glyph costs the small file (document 02, Wish 12).

use crate::args::Wanted;
use crate::failure::Failure;
use crate::odd;
use crate::output;
use crate::say;
use crate::selection::{self, Source};
use mogdivash::{Font, Way};

/// The name of the subsets that are tried; none is written.
const NAME: &str = "Blocking";

pub fn run(wanted: &Wanted) -> Result<(), Failure> {
    let path = wanted.font.as_path();
    let file = output::font_bytes(path)?;
    let refused = |refusal| Failure::refused(path, refusal);
    let font = Font::read(&file).map_err(refused)?;
    let file = file.as_slice();
    let source = Source { font, file, path };
    let kept = selection::select(&source, &wanted.keep)?;
    let keep: Vec<u16> = kept.keys().copied().collect();
    let name = wanted.name.as_deref().unwrap_or(NAME).as_bytes();
    let blocking = font.blocking_glyph(name, &keep).map_err(refused)?;
    let way = font.subset_traced(name, &keep).map_err(refused)?.way;
    if way == Way::Copied {
        odd::warn_of(&source, &kept, &keep)?;
    }
    let answer = answer(way, blocking.map(|glyph| kept[&glyph].as_str()));
    say(&format!("{}: {answer}", path.display()));
    Ok(())
}

/// The answer in words, by the way of the subset of all that is kept.
fn answer(way: Way, blocking: Option<&str>) -> String {
    match (way, blocking) {
        (Way::Renumbered, _) => {
            "none: the subset is small: only the subroutines in use, renumbered".to_owned()
        }
        (Way::Copied, _) => {
            "none: a kept glyph is not plain, so that all subroutines are copied".to_owned()
        }
        (Way::Stubbed, Some(glyph)) => {
            format!("{glyph}: without it the subset has only the subroutines in use, renumbered")
        }
        (Way::Stubbed, None) => {
            "none: subroutines not in use are emptied, and no single glyph is the cause".to_owned()
        }
    }
}

#[cfg(test)]
mod tests {
    use super::*;

    #[test]
    fn answers() {
        assert!(answer(Way::Renumbered, None).starts_with("none: the subset is small"));
        assert!(answer(Way::Copied, None).starts_with("none: a kept glyph is not plain"));
        assert!(answer(Way::Stubbed, None).ends_with("no single glyph is the cause"));
        assert!(answer(Way::Stubbed, Some("'é' (U+00E9)")).starts_with("'é' (U+00E9): without it"));
    }
}
