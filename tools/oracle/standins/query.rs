//! Stand-in for the query modules: the types that world.rs mentions. Nothing here runs.

use std::marker::PhantomData;

use crate::world::World;

pub trait WorldQuery {}

pub struct QueryBuilder<'w, Q>(PhantomData<(&'w World, Q)>);

impl<'w, Q: WorldQuery> QueryBuilder<'w, Q> {
    pub const fn new(_world: &'w World) -> Self {
        Self(PhantomData)
    }
}

pub struct ExtQueryMut<'w, T>(PhantomData<(&'w World, T)>);

impl<'w, T> ExtQueryMut<'w, T> {
    pub fn new(_world: &'w mut World) -> Self {
        Self(PhantomData)
    }
}

pub mod storage {
    use std::any::Any;
    use std::collections::BTreeMap;

    use slotmap::SecondaryMap;

    use crate::entity::EntityId;

    /// Type-erased storage of a custom component.
    pub trait AnyExtMap: Send + Sync {
        fn as_any(&self) -> &dyn Any;
        fn as_any_mut(&mut self) -> &mut dyn Any;
        fn remove(&mut self, id: EntityId);
        fn serialize_entries(&self) -> BTreeMap<EntityId, String>;
        fn deserialize_entries(&mut self, data: &BTreeMap<EntityId, String>);
    }

    impl<T: 'static + Send + Sync> AnyExtMap for SecondaryMap<EntityId, T> {
        fn as_any(&self) -> &dyn Any {
            self
        }
        fn as_any_mut(&mut self) -> &mut dyn Any {
            self
        }
        fn remove(&mut self, id: EntityId) {
            SecondaryMap::remove(self, id);
        }
        fn serialize_entries(&self) -> BTreeMap<EntityId, String> {
            unreachable!("no custom component takes part in a group pass")
        }
        fn deserialize_entries(&mut self, _data: &BTreeMap<EntityId, String>) {
            unreachable!("no custom component takes part in a group pass")
        }
    }
}
