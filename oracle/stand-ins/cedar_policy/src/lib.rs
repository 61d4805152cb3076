//! Stands in for the crate cedar_policy: the name of an entity type, the id of an entity, and the pair of both.
//! No decoding logic is in it; the decoder only stores these values and compares them.

use std::fmt;

/// An entity type by its name, which here is the name of its row in document 01's tables.
#[derive(Clone, Debug, PartialEq, Eq, PartialOrd, Ord, Hash)]
pub struct EntityTypeName(String);

impl EntityTypeName {
    pub fn new(name: impl AsRef<str>) -> Self {
        Self(name.as_ref().to_string())
    }
}

impl AsRef<str> for EntityTypeName {
    fn as_ref(&self) -> &str {
        &self.0
    }
}

impl fmt::Display for EntityTypeName {
    fn fmt(&self, f: &mut fmt::Formatter<'_>) -> fmt::Result {
        f.write_str(&self.0)
    }
}

#[derive(Clone, Debug, PartialEq, Eq, PartialOrd, Ord, Hash)]
pub struct EntityId(String);

impl EntityId {
    pub fn new(id: impl AsRef<str>) -> Self {
        Self(id.as_ref().to_string())
    }
}

impl AsRef<str> for EntityId {
    fn as_ref(&self) -> &str {
        &self.0
    }
}

#[derive(Clone, Debug, PartialEq, Eq, PartialOrd, Ord, Hash)]
pub struct EntityUid {
    type_name: EntityTypeName,
    id: EntityId,
}

impl EntityUid {
    pub fn from_type_name_and_id(type_name: EntityTypeName, id: EntityId) -> Self {
        Self { type_name, id }
    }

    pub fn type_name(&self) -> &EntityTypeName {
        &self.type_name
    }

    pub fn id(&self) -> &EntityId {
        &self.id
    }
}
