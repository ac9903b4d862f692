//! The four languages, and the bundle of each.

use weszlagyo::{FluentBundle, FluentResource, Locale, Refusal};

/// The sentences of `sheets/*.ftl` as resource images. It is the file that
/// `tools/sheets` makes for the Rattle program, which is Rust as well.
#[cfg_attr(not(test), allow(dead_code))]
mod embedded {
    include!(concat!(
        env!("CARGO_MANIFEST_DIR"),
        "/../../crates/sheet/src/embedded.rt"
    ));
}

/// All of them, in the order in which they are printed.
pub const ALL: [Locale; 4] = [Locale::En, Locale::Da, Locale::Ru, Locale::Cy];

/// The arguments image of the usual sighting, as the Rattle program has it.
#[cfg(test)]
pub const USUAL: &[u8] = &embedded::SIGHTING;

/// The sheet image of it, as the Rattle program has it.
#[cfg(test)]
pub const USUAL_SHEET: &[u8] = &embedded::SHEET;

fn image(locale: Locale) -> &'static [u8] {
    match locale {
        Locale::En => &embedded::EN,
        Locale::Da => &embedded::DA,
        Locale::Ru => &embedded::RU,
        Locale::Cy => &embedded::CY,
    }
}

/// NUMBER, and the sentences of a language.
pub fn bundle(locale: Locale, isolate: bool) -> Result<FluentBundle, Refusal> {
    let resource = FluentResource::from_image(image(locale).to_vec())?;
    let mut bundle = FluentBundle::new(vec![locale]);
    bundle.set_use_isolating(isolate);
    bundle.add_builtins().expect("a new bundle has no NUMBER");
    bundle
        .add_resource(&resource)
        .expect("the sentences of a language have an id each");
    Ok(bundle)
}

#[cfg(test)]
mod tests {
    use super::{bundle, ALL};

    #[test]
    fn every_language_has_a_bundle() {
        for locale in ALL {
            assert!(bundle(locale, false).is_ok_and(|b| b.has_message("seen")));
        }
    }
}
