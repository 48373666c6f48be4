//! Stands in for the original's namespaces.

pub mod common {
    /// Namespaces in XML, section 3: the prefix `xml` is bound to this.
    pub const XML_NS: &str = "http://www.w3.org/XML/1998/namespace";
}
