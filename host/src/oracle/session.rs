//! The original's session as an oracle: `identity_element_start`, `identity_element_end` and
//! `validate_keyrefs`, driven element by element.

use std::collections::HashMap;
use std::mem;

use super::assert_comparable;
pub use super::open::{Cell, Open, Tuples};
use crate::definitions::{Binding, Constraint, Record};
use crate::model::cells;
use crate::names::Name;
use crate::schema::types::{
    CompiledConstraint, CompiledConstraintType, CompiledSchema, ComplexType, TypeDef,
};
use crate::schema::validator::state::ElementContext;
use crate::schema::validator::streaming::OnePassSchemaValidator;
use crate::schema::validator::streaming::identity::{FieldState, ScopeState};
use crate::schema::xsd::constraints::KeyValue;

/// Constraints as the original holds them, and the schema-wide bindings.
pub(super) struct Definitions {
    pub constraints: Vec<CompiledConstraint>,
    pub schema: HashMap<String, String>,
}

impl Definitions {
    pub fn of(records: &[Record]) -> Self {
        let mut definitions = Self {
            constraints: Vec::new(),
            schema: HashMap::new(),
        };
        for record in records {
            match record {
                Record::Id(constraint) => definitions.constraints.push(compiled(constraint)),
                Record::Ns(binding) => definitions.bind(binding),
            }
        }
        definitions
    }

    /// A schema-wide prefix stays bound as it first was; an own binding goes to the latest
    /// constraint.
    fn bind(&mut self, binding: &Binding) {
        let Binding {
            target,
            prefix,
            uri,
        } = binding.clone();
        if target == 0 {
            self.schema.entry(prefix).or_insert(uri);
            return;
        }
        let latest = self.constraints.last_mut().expect("a constraint before");
        match target {
            1 => latest.selector_namespaces.push((prefix, uri)),
            _ => latest.field_namespaces[usize::from(target) - 2].push((prefix, uri)),
        }
    }
}

#[track_caller]
fn compiled(constraint: &Constraint) -> CompiledConstraint {
    let paths = constraint.fields.iter().chain([&constraint.selector]);
    paths.for_each(|path| assert_comparable(path));
    let constraint = constraint.clone();
    CompiledConstraint {
        name: constraint.name,
        constraint_type: match constraint.kind {
            0 => CompiledConstraintType::Unique,
            1 => CompiledConstraintType::Key,
            _ => CompiledConstraintType::KeyRef,
        },
        selector_xpath: constraint.selector,
        field_namespaces: vec![Vec::new(); constraint.fields.len()],
        field_xpaths: constraint.fields,
        refer: constraint.refer,
        selector_namespaces: Vec::new(),
    }
}

pub struct Session {
    validator: OnePassSchemaValidator,
    constraints: Vec<CompiledConstraint>,
}

impl Session {
    /// A session with the constraints and bindings of these records.
    pub fn new(records: &[Record]) -> Self {
        let definitions = Definitions::of(records);
        let schema = CompiledSchema {
            prefix_namespaces: definitions.schema,
        };
        Self {
            validator: OnePassSchemaValidator {
                schema,
                ..Default::default()
            },
            constraints: definitions.constraints,
        }
    }

    /// An element starts, with the constraints of these numbers and with these attributes.
    pub fn start(&mut self, name: &Name, numbers: &[usize], attributes: &[(&str, &str)]) {
        let element = ElementContext {
            name: name.qualified.as_str().into(),
            namespace: Some(name.space.as_str().into()),
            text_content: String::new(),
            type_ref: None,
            type_ns: None,
            inline_type: None,
        };
        self.validator.state.element_stack.push(element);
        let declared: Vec<_> = numbers
            .iter()
            .map(|&number| self.constraints[number].clone())
            .collect();
        let keys: Vec<String> = attributes.iter().map(|(_, key)| quoted(key)).collect();
        let attributes: Vec<(&str, &str)> = attributes
            .iter()
            .zip(&keys)
            .map(|(&(name, _), key)| (name, key.as_str()))
            .collect();
        self.validator
            .identity_element_start(&declared, &attributes);
    }

    /// The innermost element ends.
    pub fn end(&mut self, simple: bool, key: &str) {
        let stack = &mut self.validator.state.element_stack;
        let depth = stack.len();
        let mut element = stack.pop().expect("an open element");
        element.text_content = quoted(key);
        element.inline_type = Some(Box::new(match simple {
            true => TypeDef::Simple,
            false => TypeDef::Complex(ComplexType),
        }));
        self.validator.identity_element_end(depth, &element);
    }

    /// What was reported since the last call, keyrefs aside.
    pub fn messages(&mut self) -> Vec<String> {
        let errors = mem::take(&mut self.validator.errors);
        errors.into_iter().map(|error| error.message).collect()
    }

    /// What the look-up of keyrefs reports at the end.
    pub fn keyref_messages(&self) -> Vec<String> {
        let errors = self.validator.constraint_validator.validate_keyrefs().err();
        errors
            .into_iter()
            .flatten()
            .map(|error| error.to_string())
            .collect()
    }

    /// Whether the innermost element is selected by the open scope with this number, from 0.
    pub fn selects(&self, scope: usize) -> bool {
        let depth = self.validator.state.element_stack.len();
        let selected = &self.scope(scope).selected;
        selected.iter().any(|selected| selected.depth == depth)
    }

    /// The cell of a field of the outermost element that this scope has selected.
    pub fn cell(&self, scope: usize, field: usize) -> Cell {
        match self.scope(scope).selected[0].fields[field] {
            FieldState::Unset => Cell::Unset,
            FieldState::Set(_) => Cell::Set,
            FieldState::NotSimple => Cell::NotSimple,
            FieldState::Multiple => Cell::Multiple,
        }
    }

    /// The open scopes, in the order of their opening.
    pub fn open(&self) -> Vec<Open> {
        let scopes = self.validator.identity_scopes.iter();
        scopes.map(open).collect()
    }

    /// The tuples of the unique and key constraints of a name.
    pub fn tuples(&self, name: &str) -> Tuples {
        let validator = &self.validator.constraint_validator;
        let tuples = validator.get_key_values(name).into_iter();
        tuples.flat_map(|set| set.values()).map(unquoted).collect()
    }

    fn scope(&self, number: usize) -> &ScopeState {
        &self.validator.identity_scopes[number]
    }
}

fn open(scope: &ScopeState) -> Open {
    let selected = scope.selected.iter();
    Open {
        constraint: Constraint {
            kind: match scope.constraint.constraint_type {
                CompiledConstraintType::Unique => 0,
                CompiledConstraintType::Key => 1,
                CompiledConstraintType::KeyRef => 2,
            },
            name: scope.constraint.name.clone(),
            refer: scope.constraint.refer.clone(),
            selector: scope.constraint.selector_xpath.clone(),
            fields: scope.constraint.field_xpaths.clone(),
        },
        depth: scope.depth,
        selected: selected
            .map(|it| (it.depth, it.fields.iter().map(cell).collect()))
            .collect(),
        seen: scope.seen.iter().map(unquoted).collect(),
    }
}

fn cell(state: &FieldState) -> cells::Cell {
    match state {
        FieldState::Unset => cells::Cell::Unset,
        FieldState::Set(key) => cells::Cell::Set(bare(key).into()),
        FieldState::NotSimple => cells::Cell::NotSimple,
        FieldState::Multiple => cells::Cell::Multiple,
    }
}

fn unquoted(tuple: &KeyValue) -> Vec<String> {
    tuple.values.iter().map(|key| bare(key).into()).collect()
}

/// The original trims the text of an element. A key text is a key as it stands, so both sorts are
/// handed over with something around them.
pub fn quoted(key: &str) -> String {
    format!("'{key}'")
}

/// The key that was quoted.
fn bare(quoted: &str) -> &str {
    let key = quoted
        .strip_prefix('\'')
        .and_then(|it| it.strip_suffix('\''));
    key.expect("a key that was quoted")
}
