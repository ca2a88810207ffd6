//! What both tests of the page begin with: a stored example, its page, and the data in it.

use tools::examples::folder;
use tools::page::{draw, Options};

pub fn example(name: &str) -> Vec<u8> {
    std::fs::read(folder().join(format!("{name}.sheet"))).unwrap()
}

pub fn page(sheet: &[u8]) -> String {
    draw(sheet, &Options::default()).unwrap()
}

/// The data's JSON.
pub fn data(page: &str) -> &str {
    let (_, behind) = page.split_once("<script id=\"run\" type=\"application/json\">").unwrap();
    behind.split_once("</script>").unwrap().0
}
