
/// Appended by oracle/build; everything above is data.rs as given.
pub mod probe {
    use super::{skip_to_frame, DataParser};
    use crate::filter::FilterSet;
    use crate::headers::Headers;
    use crate::reader::Reader;

    /// A parser over `section` alone. `Headers::data_parser` does the same with
    /// what the header parser left of its own input.
    pub fn parser<'d, 'h>(section: &'d [u8], headers: &'h Headers<'d>) -> DataParser<'d, 'h> {
        DataParser::new(Reader::new(section), headers, &FilterSet::default())
    }

    /// The place of the next byte to be read.
    pub fn position(parser: &DataParser<'_, '_>) -> usize {
        parser.data_len - parser.data.remaining()
    }

    /// What `DataParser::next` does behind the kind byte of a corrupt trial.
    pub fn search(parser: &mut DataParser<'_, '_>) {
        skip_to_frame(&mut parser.data);
    }
}
