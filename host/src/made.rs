//! Records for listed cases.

use crate::model::records::{Attribute, Ee, Es, Id, Ns, Record};

/// A constraint; `kind` is 0 unique, 1 key, 2 keyref.
pub fn id(kind: u8, name: &str, refer: Option<&str>, selector: &str, fields: &[&str]) -> Record {
    Record::Id(Id {
        kind,
        name: name.into(),
        flag: refer.is_some().into(),
        refer: refer.map(Into::into),
        selector: selector.into(),
        fields: fields.iter().map(|&field| field.into()).collect(),
    })
}

pub fn ns(target: u8, prefix: &str, uri: &str) -> Record {
    Record::Ns(Ns {
        target,
        prefix: prefix.into(),
        uri: uri.into(),
    })
}

/// An element in no namespace.
pub fn es(name: &str, numbers: &[u8], attributes: &[(&str, &str)]) -> Record {
    let attribute = |&(name, key): &(&str, &str)| Attribute {
        name: name.into(),
        key: key.into(),
    };
    Record::Es(Es {
        space: Vec::new(),
        name: name.into(),
        numbers: numbers.into(),
        attributes: attributes.iter().map(attribute).collect(),
    })
}

pub fn ee(simple: u8, key: &str) -> Record {
    Record::Ee(Ee {
        simple,
        key: key.into(),
    })
}

/// An element that has nothing in it.
pub fn leaf(name: &str, attributes: &[(&str, &str)]) -> [Record; 2] {
    [es(name, &[], attributes), ee(0, "")]
}

/// Document 01, 'One run, whole'.
pub fn one_run() -> Vec<Record> {
    let mut records = vec![id(1, "k", None, "r", &["@id"]), es("t", &[0], &[])];
    records.extend(leaf("r", &[("id", "a")]));
    records.extend(leaf("r", &[("id", "a")]));
    records.extend(leaf("r", &[]));
    records.extend([ee(0, ""), Record::Fi]);
    records
}
