//! The modules of the original that its own `use` lines name. A file of the original enters by
//! `include!` of the declaration that build.rs wrote for it; what such a file leans on is a thin
//! stand-in at the original's path, with the original's names. Types and value spaces are outside
//! of what is compared: no stand-in looks a type up, and a key text is a key as it stands.

pub mod xsd {
    include!(concat!(env!("OUT_DIR"), "/schema/xsd/constraints.rs"));
    include!(concat!(env!("OUT_DIR"), "/schema/xsd/identity_xpath.rs"));

    /// Stands in for the original's primitive types, whose NCName test first collapses white space.
    pub mod primitive {
        #[derive(Clone, Copy)]
        pub enum PrimitiveKind {
            Ncname,
        }

        pub struct PrimitiveError;

        impl PrimitiveKind {
            pub fn validate(&self, text: &str) -> Result<(), PrimitiveError> {
                match self {
                    Self::Ncname if crate::ncname::is_ncname(text) => Ok(()),
                    Self::Ncname => Err(PrimitiveError),
                }
            }
        }
    }

    /// Stands in for the original's comparison of values, which makes a key of a text by its type.
    pub mod value_compare {
        use super::primitive::PrimitiveKind;

        pub fn identity_key(_: Option<PrimitiveKind>, text: &str) -> String {
            text.into()
        }
    }
}

/// Stands in for the compiled schema. The constraint has the original's fields.
pub mod types {
    use std::collections::HashMap;

    #[derive(Default)]
    pub struct CompiledSchema {
        pub prefix_namespaces: HashMap<String, String>,
    }

    impl CompiledSchema {
        pub fn type_by_ref(&self, _: Option<&NsName>, _: &str) -> Option<&TypeDef> {
            None
        }
    }

    pub struct NsName;

    /// The type of an element that has a simple value, or of one that has none.
    pub enum TypeDef {
        Simple,
        Complex(ComplexType),
    }

    pub struct ComplexType;

    #[derive(Debug, Clone, Copy, PartialEq, Eq)]
    pub enum CompiledConstraintType {
        Unique,
        Key,
        KeyRef,
    }

    #[derive(Debug, Clone)]
    pub struct CompiledConstraint {
        pub name: String,
        pub constraint_type: CompiledConstraintType,
        pub selector_xpath: String,
        pub field_xpaths: Vec<String>,
        pub refer: Option<String>,
        pub selector_namespaces: Vec<(String, String)>,
        pub field_namespaces: Vec<Vec<(String, String)>>,
    }
}

pub mod validator {
    /// Stands in for the state of a validation: the open elements.
    pub mod state {
        use std::sync::Arc;

        use crate::schema::types::{NsName, TypeDef};

        #[derive(Default)]
        pub struct ValidationState {
            pub element_stack: Vec<ElementContext>,
        }

        impl ValidationState {
            pub fn current_element(&self) -> Option<&ElementContext> {
                self.element_stack.last()
            }
        }

        pub struct ElementContext {
            pub name: Arc<str>,
            pub namespace: Option<Arc<str>>,
            pub text_content: String,
            pub type_ref: Option<Arc<str>>,
            pub type_ns: Option<NsName>,
            pub inline_type: Option<Box<TypeDef>>,
        }
    }

    /// Stands in for the look-up of types.
    pub mod attributes {
        use crate::schema::types::{CompiledSchema, ComplexType, TypeDef};
        use crate::schema::xsd::primitive::PrimitiveKind;

        pub fn attribute_primitive_kind(
            _: &CompiledSchema,
            _: &ComplexType,
            _: &str,
        ) -> Option<PrimitiveKind> {
            None
        }

        pub fn element_text_primitive_kind(
            _: &CompiledSchema,
            _: &TypeDef,
        ) -> Option<PrimitiveKind> {
            None
        }

        pub fn type_has_simple_value(type_def: &TypeDef) -> bool {
            matches!(type_def, TypeDef::Simple)
        }
    }

    pub mod streaming {
        use std::collections::HashSet;

        use super::state::ValidationState;
        use crate::error::{StructuredError, ValidationErrorType};
        use crate::schema::types::CompiledSchema;
        use crate::schema::xsd::constraints::ConstraintValidator;

        include!(concat!(
            env!("OUT_DIR"),
            "/schema/validator/streaming/identity.rs"
        ));

        /// Stands in for the validator, of which identity constraints are a part: what that part
        /// reads and writes.
        #[derive(Default)]
        pub struct OnePassSchemaValidator {
            pub(crate) schema: CompiledSchema,
            pub(crate) state: ValidationState,
            pub(crate) errors: Vec<StructuredError>,
            pub(crate) constraint_validator: ConstraintValidator,
            pub(crate) identity_scopes: Vec<identity::ScopeState>,
            pub(crate) unsupported_constraints: HashSet<String>,
        }

        impl OnePassSchemaValidator {
            pub(crate) fn make_error(
                &self,
                _: ValidationErrorType,
                message: String,
            ) -> StructuredError {
                StructuredError { message }
            }

            pub(crate) fn add_error(&mut self, error: StructuredError) {
                self.errors.push(error);
            }
        }
    }
}
