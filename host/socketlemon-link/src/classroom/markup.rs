//! Elements of a page, written by quick-xml: it escapes texts and values.

use quick_xml::events::{BytesEnd, BytesStart, BytesText, Event};
use quick_xml::{Result, Writer};

/// A page as far as it is written.
pub struct Markup(Writer<Vec<u8>>);

/// The attributes of an element.
pub type Attributes<'a> = &'a [(&'a str, String)];

impl Markup {
    /// An HTML page without its elements.
    pub fn page() -> Result<Markup> {
        let mut writer = Writer::new(Vec::new());
        writer.write_event(Event::DocType(BytesText::new("html")))?;
        Ok(Markup(writer))
    }

    /// The page, as bytes in UTF-8.
    pub fn into_bytes(self) -> Vec<u8> {
        self.0.into_inner()
    }

    /// An element without content.
    pub fn empty(&mut self, name: &str, attributes: Attributes<'_>) -> Result<()> {
        self.0.write_event(Event::Empty(start(name, attributes)))
    }

    /// An element with a text.
    pub fn text(&mut self, name: &str, attributes: Attributes<'_>, text: &str) -> Result<()> {
        self.element(name, attributes, |inner| inner.0.write_event(Event::Text(BytesText::new(text))))
    }

    /// An element with what a function writes into it.
    pub fn element(
        &mut self,
        name: &str,
        attributes: Attributes<'_>,
        inner: impl FnOnce(&mut Markup) -> Result<()>,
    ) -> Result<()> {
        self.0.write_event(Event::Start(start(name, attributes)))?;
        inner(self)?;
        self.0.write_event(Event::End(BytesEnd::new(name)))
    }
}

fn start<'a>(name: &'a str, attributes: Attributes<'_>) -> BytesStart<'a> {
    BytesStart::new(name).with_attributes(attributes.iter().map(|(name, value)| (*name, value.as_str())))
}

#[cfg(test)]
mod tests {
    use super::*;

    #[test]
    fn texts_and_values_are_escaped() {
        let mut page = Markup::page().expect("a page");
        page.element("p", &[("title", "\"<&'>".to_owned())], |p| {
            p.empty("br", &[])?;
            p.text("b", &[], "a < b & \"c\" > 'd' → é")
        })
        .expect("an element");
        let text = String::from_utf8(page.into_bytes()).expect("UTF-8");
        assert_eq!(
            text,
            "<!DOCTYPE html><p title=\"&quot;&lt;&amp;&apos;&gt;\"><br/>\
             <b>a &lt; b &amp; &quot;c&quot; &gt; &apos;d&apos; → é</b></p>"
        );
    }
}
