//! Stand-in for entity.rs: entity ids are slotmap keys, ordered by the order in which they were made.

slotmap::new_key_type! {
    /// Key of an entity in the world.
    pub struct EntityId;
}
